void config_init__(void){
STATION_start__();
}
void config_run__(ULINT tick__){
STATION_run__(tick__);
}
