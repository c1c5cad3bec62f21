void BLINK_init__(BLINK*p__){
__INIT_VAR(p__->MOST,((INT)10ULL));
}
void BLINK_body__(BLINK*p__){
USINT pick__ = 0;
ULINT case__ = 0;
ULINT step__ = 0;
ULINT limit__ = 0;
pick__ = 0;
if((pick__ == 0)){
if((__GET_VAR(p__->BUTTON) & ((BOOL)(18446744073709551615ULL - ((ULINT)__GET_VAR(p__->FULL)))))){
__SET_VAR(p__->COUNT,((INT)(((ULINT)__GET_VAR(p__->COUNT)) + ((ULINT)((INT)1ULL)))));
__SET_VAR(p__->LAMP,((BOOL)(18446744073709551615ULL - ((ULINT)__GET_VAR(p__->LAMP)))));
pick__ = 1;
}
}
if((pick__ == 0)){
if(__GET_VAR(p__->FULL)){
__SET_VAR(p__->COUNT,((INT)0ULL));
pick__ = 1;
}
}
if((pick__ == 0)){
}
__SET_VAR(p__->FULL,(__GET_VAR(p__->COUNT) >= __GET_VAR(p__->MOST)));
__SET_VAR(p__->SUM,((INT)0ULL));
__SET_VAR(p__->TURN,((INT)1ULL));
step__ = ((INT)1ULL);
limit__ = __GET_VAR(p__->COUNT);
while((((((INT)step__) >= ((INT)0ULL)) & (__GET_VAR(p__->TURN) <= ((INT)limit__))) | ((((INT)step__) < ((INT)0ULL)) & (__GET_VAR(p__->TURN) >= ((INT)limit__))))){
__SET_VAR(p__->SUM,((INT)(((ULINT)__GET_VAR(p__->SUM)) + ((ULINT)__GET_VAR(p__->TURN)))));
__SET_VAR(p__->TURN,((INT)(((ULINT)__GET_VAR(p__->TURN)) + ((ULINT)((INT)1ULL)))));
step__ = ((INT)1ULL);
limit__ = __GET_VAR(p__->COUNT);
}
}
