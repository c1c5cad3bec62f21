#include "iec_std_lib.h"
typedef struct{
__IEC_INT_t TRIES;
__IEC_BOOL_t READY;
__IEC_BOOL_t BLOCKED;
}
EXAMPLE;
