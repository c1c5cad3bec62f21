EXAMPLE STATION__MAIN;
void STATION_start__(void){
EXAMPLE_init__(&STATION__MAIN);
}
void STATION_run__(ULINT tick__){
EXAMPLE_body__(&STATION__MAIN);
}
