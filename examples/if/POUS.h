#include "iec_std_lib.h"
typedef struct{
__IEC_BOOL_t START;
__IEC_BOOL_t STOP;
__IEC_BOOL_t MOTOR;
__IEC_INT_t FAULTS;
}
EXAMPLE;
