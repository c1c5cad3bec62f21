void EXAMPLE_init__(EXAMPLE*p__){
}
void EXAMPLE_body__(EXAMPLE*p__){
USINT pick__ = 0;
ULINT case__ = 0;
ULINT step__ = 0;
ULINT limit__ = 0;
pick__ = 0;
if((pick__ == 0)){
if(__GET_VAR(p__->STOP)){
__SET_VAR(p__->MOTOR,((BOOL)0ULL));
pick__ = 1;
}
}
if((pick__ == 0)){
if((__GET_VAR(p__->START) & (__GET_VAR(p__->FAULTS) == ((INT)0ULL)))){
__SET_VAR(p__->MOTOR,((BOOL)1ULL));
pick__ = 1;
}
}
if((pick__ == 0)){
__SET_VAR(p__->FAULTS,((INT)(((ULINT)__GET_VAR(p__->FAULTS)) - ((ULINT)((INT)1ULL)))));
}
}
