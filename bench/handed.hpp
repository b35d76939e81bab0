// Sections handed out to threads, level by level, against the enhancement on one thread.
#pragma once

// Prints what both take on frames of 1,024 x 1,024 pixels with the house setting, in time on the clock, and checks that
// plane, output and counts are the same.
void print_handed(int rounds);

// Checks this on small frames of every kind, with four and with eight neighbours and on one to five threads, without
// measuring. Answers how many were compared; none where the library is not linked.
int verify_handed();
