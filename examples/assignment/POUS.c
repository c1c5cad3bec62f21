void EXAMPLE_init__(EXAMPLE*p__){
__INIT_VAR(p__->REST,((INT)100ULL));
}
void EXAMPLE_body__(EXAMPLE*p__){
USINT pick__ = 0;
ULINT case__ = 0;
ULINT step__ = 0;
ULINT limit__ = 0;
__SET_VAR(p__->COUNT,((INT)(((ULINT)__GET_VAR(p__->COUNT)) + ((ULINT)((INT)1ULL)))));
__SET_VAR(p__->REST,((INT)(((ULINT)((INT)(0ULL - ((ULINT)((INT)(((ULINT)__GET_VAR(p__->LEVEL)) * ((ULINT)((INT)2ULL)))))))) - ((ULINT)__GET_VAR(p__->REST)))));
__SET_VAR(p__->HIGH,((__GET_VAR(p__->LEVEL) > __GET_VAR(p__->REST)) & ((BOOL)(18446744073709551615ULL - ((ULINT)__GET_VAR(p__->ALARM))))));
}
