extern volatile unsigned char in; extern volatile unsigned char out; int main(void) { unsigned char t__1; while (1) { t__1 = in; out = t__1; } }
