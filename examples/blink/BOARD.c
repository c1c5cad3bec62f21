BLINK BOARD__MAIN;
void BOARD_start__(void){
BLINK_init__(&BOARD__MAIN);
}
void BOARD_run__(ULINT tick__){
BLINK_body__(&BOARD__MAIN);
}
