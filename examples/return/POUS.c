void EXAMPLE_init__(EXAMPLE*p__){
}
void EXAMPLE_body__(EXAMPLE*p__){
USINT pick__ = 0;
ULINT case__ = 0;
ULINT step__ = 0;
ULINT limit__ = 0;
pick__ = 0;
if((pick__ == 0)){
if(((BOOL)(18446744073709551615ULL - ((ULINT)__GET_VAR(p__->ENABLED))))){
return;
pick__ = 1;
}
}
if((pick__ == 0)){
}
__SET_VAR(p__->COUNT,((INT)(((ULINT)__GET_VAR(p__->COUNT)) + ((ULINT)((INT)1ULL)))));
}
