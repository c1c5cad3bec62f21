void EXAMPLE_init__(EXAMPLE*p__){
}
void EXAMPLE_body__(EXAMPLE*p__){
USINT pick__ = 0;
ULINT case__ = 0;
ULINT step__ = 0;
ULINT limit__ = 0;
case__ = __GET_VAR(p__->MODE);
pick__ = 0;
if((pick__ == 0)){
if(((((INT)0ULL) <= ((INT)case__)) & (((INT)case__) <= ((INT)0ULL)))){
pick__ = 2;
}
}
if((pick__ == 2)){
__SET_VAR(p__->SPEED,((INT)0ULL));
pick__ = 1;
}
if((pick__ == 0)){
if(((((INT)1ULL) <= ((INT)case__)) & (((INT)case__) <= ((INT)1ULL)))){
pick__ = 2;
}
}
if((pick__ == 0)){
if(((((INT)2ULL) <= ((INT)case__)) & (((INT)case__) <= ((INT)2ULL)))){
pick__ = 2;
}
}
if((pick__ == 2)){
__SET_VAR(p__->SPEED,((INT)100ULL));
pick__ = 1;
}
if((pick__ == 0)){
if(((((INT)10ULL) <= ((INT)case__)) & (((INT)case__) <= ((INT)19ULL)))){
pick__ = 2;
}
}
if((pick__ == 2)){
__SET_VAR(p__->SPEED,((INT)(((ULINT)((INT)10ULL)) * ((ULINT)__GET_VAR(p__->MODE)))));
pick__ = 1;
}
if((pick__ == 0)){
__SET_VAR(p__->MODE,((INT)0ULL));
}
}
