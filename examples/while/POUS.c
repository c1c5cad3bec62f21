void EXAMPLE_init__(EXAMPLE*p__){
}
void EXAMPLE_body__(EXAMPLE*p__){
USINT pick__ = 0;
ULINT case__ = 0;
ULINT step__ = 0;
ULINT limit__ = 0;
while((__GET_VAR(p__->LEVEL) < __GET_VAR(p__->TARGET))){
__SET_VAR(p__->LEVEL,((INT)(((ULINT)__GET_VAR(p__->LEVEL)) + ((ULINT)((INT)1ULL)))));
}
}
