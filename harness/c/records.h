#ifndef RECORDS_H
#define RECORDS_H

/* The house record: written, read, and refused. */
void records(void);

#endif
