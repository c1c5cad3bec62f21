#include "iec_std_lib.h"
typedef struct{
__IEC_BOOL_t ENABLED;
__IEC_INT_t COUNT;
}
EXAMPLE;
