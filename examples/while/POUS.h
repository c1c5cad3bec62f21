#include "iec_std_lib.h"
typedef struct{
__IEC_INT_t LEVEL;
__IEC_INT_t TARGET;
}
EXAMPLE;
