/* The parts of the test, a file each. */
#ifndef STATION_TEST_H
#define STATION_TEST_H

void format_test(void);
void read_test(void);
void letter_test(void);
void clock_test(void);
void pick_test(void);
void request_test(void);
void step_test(void);
void cut_test(void);
void clock_cut_test(void);
void empty_test(void);
void size_test(void);
void file_test(void);
void file_end_test(void);
void flux_test(void);

#endif
