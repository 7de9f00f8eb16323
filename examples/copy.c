extern volatile unsigned char in; extern volatile unsigned char out;
int main(void) { unsigned char t; while (1) { t = in; out = t; } }
