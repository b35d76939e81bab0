// What small components cost.
#pragma once

// Prints, for planes with many thousand small components and for sections of each width from 256 to 2, what the library
// takes for a component: to find it, and to count, retone and paint it; and what of the latter is not for its pixels.
void print_grain(int rounds);
