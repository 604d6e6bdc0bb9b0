#ifndef KIT_STDLIB_H
#define KIT_STDLIB_H
int atoi(const char *digits);
void exit(int status);
#endif
