/* The library under test is called as its users call it: by the project's own header. */
#ifndef REFERENCE_INTERFACE_H
#define REFERENCE_INTERFACE_H
#include "../../include/vayudrit.h"
#endif
