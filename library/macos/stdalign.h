#define alignof _Alignof
