/* The masks of BLADE_SECRET (blade.h): two globals of the module, both 0, whose first values blade-label declares secret. blade-cc links them by itself where
   they are used. Licence: public domain (CC0). */
volatile unsigned __attribute__((address_space(1))) blade_secret_mask_32;
volatile unsigned long long __attribute__((address_space(1))) blade_secret_mask_64;
