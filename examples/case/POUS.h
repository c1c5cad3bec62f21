#include "iec_std_lib.h"
typedef struct{
__IEC_INT_t MODE;
__IEC_INT_t SPEED;
}
EXAMPLE;
