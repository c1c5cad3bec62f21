#include "iec_std_lib.h"
typedef struct{
__IEC_BOOL_t LAMP;
__IEC_BOOL_t FULL;
__IEC_BOOL_t BUTTON;
__IEC_INT_t COUNT;
__IEC_INT_t SUM;
__IEC_INT_t TURN;
__IEC_INT_t MOST;
}
BLINK;
