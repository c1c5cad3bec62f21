void EXAMPLE_init__(EXAMPLE*p__){
}
void EXAMPLE_body__(EXAMPLE*p__){
USINT pick__ = 0;
ULINT case__ = 0;
ULINT step__ = 0;
ULINT limit__ = 0;
__SET_VAR(p__->TURN,__GET_VAR(p__->LAST));
step__ = ((INT)18446744073709551614ULL);
limit__ = ((INT)0ULL);
while((((((INT)step__) >= ((INT)0ULL)) & (__GET_VAR(p__->TURN) <= ((INT)limit__))) | ((((INT)step__) < ((INT)0ULL)) & (__GET_VAR(p__->TURN) >= ((INT)limit__))))){
__SET_VAR(p__->SUM,((INT)(((ULINT)__GET_VAR(p__->SUM)) + ((ULINT)__GET_VAR(p__->TURN)))));
__SET_VAR(p__->TURN,((INT)(((ULINT)__GET_VAR(p__->TURN)) + ((ULINT)((INT)18446744073709551614ULL)))));
step__ = ((INT)18446744073709551614ULL);
limit__ = ((INT)0ULL);
}
}
