#include "iec_std_lib.h"
typedef struct{
__IEC_INT_t TURN;
__IEC_INT_t LAST;
__IEC_INT_t SUM;
}
EXAMPLE;
