#ifndef CTYPE_H
#define CTYPE_H
int isalnum(int byte), isalpha(int byte), isdigit(int byte), isxdigit(int byte), isspace(int byte), isprint(int byte), ispunct(int byte), isupper(int byte), islower(int byte);
int toupper(int byte), tolower(int byte);
#endif
