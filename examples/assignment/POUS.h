#include "iec_std_lib.h"
typedef struct{
__IEC_INT_t COUNT;
__IEC_INT_t LEVEL;
__IEC_INT_t REST;
__IEC_BOOL_t HIGH;
__IEC_BOOL_t ALARM;
}
EXAMPLE;
