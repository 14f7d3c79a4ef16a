#include "list.h"

int main(void) { return length(0); }
