void EXAMPLE_init__(EXAMPLE*p__){
}
void EXAMPLE_body__(EXAMPLE*p__){
USINT pick__ = 0;
ULINT case__ = 0;
ULINT step__ = 0;
ULINT limit__ = 0;
while(1){
pick__ = 0;
if((pick__ == 0)){
if(__GET_VAR(p__->BLOCKED)){
break;
pick__ = 1;
}
}
if((pick__ == 0)){
}
__SET_VAR(p__->TRIES,((INT)(((ULINT)__GET_VAR(p__->TRIES)) + ((ULINT)((INT)1ULL)))));
if((__GET_VAR(p__->READY) | (__GET_VAR(p__->TRIES) >= ((INT)3ULL)))){
break;
}
}
}
