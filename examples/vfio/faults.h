/* What Linux tells of accesses that the IOMMU stopped, in its log. Several may be told as one: the trace of QEMU is exact. */
#ifndef FAULTS_H
#define FAULTS_H

/* Begins to look, from now on. Without the right to read the log, none is told. */
void faults_begin(void);

/* How many were told since the last look; each is printed after these blanks, where there are some. */
int faults_told(const char *blanks);

#endif
