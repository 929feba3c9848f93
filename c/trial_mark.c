/* Linked into a trial build of the library alone: packages and releases know it by these words, and
 * refuse it. The name is exported, so that the linker does not leave it out. */
extern const char tevasulim_trial[];

const char tevasulim_trial[] = TEVASULIM_TRIAL;
