void config_init__(void){
BOARD_start__();
}
void config_run__(ULINT tick__){
BOARD_run__(tick__);
}
