/* Declares secrets beside the C code that has them. Each line goes to the module's section blade.secrets, of which blade-cc and blade-label make its
   labels; on other targets than WebAssembly the macros declare nothing. They stand at file scope. Licence: public domain (CC0).

     unsigned lookup(unsigned index);
     BLADE_SECRET_PARAM(lookup, index);    parameter index of lookup is secret: by its name in C, or by its number there, from 0
     BLADE_PUBLIC_RESULT(compare);         what compare returns has to be public
     BLADE_SECRET_MEMORY;                  all of C's memory is secret: what pointers lead to, C's variables, and what C keeps in frames

     x = BLADE_SECRET(y);                  an expression: the value of y, a secret from here on

   A function is named behind its declaration and before its definition, in every unit that defines it: put the line into the header that all units
   include. blade-cc keeps clang from looking through the function, and checks the linked module: what the module's own calls give for a secret
   parameter has to be secret in the caller already. So best label the functions that are called from outside. A number counts C's parameters. There
   is no macro for a variable of C: it stands in C's memory, which has one label as a whole.

   BLADE_SECRET is y ^ mask, with a mask that is 0: a global of the module whose first value is secret. y itself stays public, where it comes from and
   where it goes to without the macro. In a unit with the macro the compiler may assume nothing (blade-cc --no-assumptions): else it could take the
   marked value for y where the code says that both are the same. All values that are marked share two masks, one up to 32 bits and one above. A pointer can't be marked, nor can what has more
   than 64 bits: mark its parts. clang's -flto doesn't take it. */
#ifndef BLADE_H
#define BLADE_H
#if defined(BLADE_CC) && !defined(__wasm__) && !defined(BLADE_OFF)
#error "blade.h: __wasm__ isn't defined, so nothing would be declared secret (for that: BLADE_OFF)"
#endif
#if defined(__wasm__) && !defined(BLADE_OFF)
#define BLADE_TEXT_(x) #x
#define BLADE_SPELLED_(x) BLADE_TEXT_(x)
#define BLADE_GLUED_(x, y) x##y
#define BLADE_NAMED_(number) BLADE_GLUED_(blade_labels_stand_at_file_scope_, number)
/* The empty function makes a macro inside of a function an error: a section that is switched there would break the code. */
#define BLADE_DECLARE_(kind, name, which) \
    static __inline__ __attribute__((__unused__)) void BLADE_NAMED_(__COUNTER__)(void) {} \
    __asm__(".section .custom_section.blade.secrets,\"\",@\n.ascii \"" kind "\\t" name "\\t" which "\\t" __FILE__ ":" BLADE_SPELLED_(__LINE__) \
            "\\t" __BASE_FILE__ "\\n\"\n.text\n")
/* The note tells blade-cc which function of that name is meant. Behind the definition the attributes would come too late: that is an error then. */
#define BLADE_KEPT_(function, kind, name, which) \
    _Pragma("clang diagnostic push") _Pragma("clang diagnostic error \"-Wignored-attributes\"") \
    extern __typeof__(function) function __attribute__((__noinline__, __annotate__(kind "\t" name "\t" which "\t" __FILE__ ":" BLADE_SPELLED_(__LINE__) \
                                                                           "\t" __BASE_FILE__))); \
    _Pragma("clang diagnostic pop")
#define BLADE_FUNCTION_(function, kind, name, which) BLADE_KEPT_(function, kind, name, which) BLADE_DECLARE_(kind, name, which)
/* A parameter's name that is a macro as well stays that name: its value may be another parameter's number. */
#define BLADE_SECRET_PARAM(function, parameter) \
    BLADE_FUNCTION_(function, "secret-param", BLADE_SPELLED_(function), #parameter)
#define BLADE_PUBLIC_RESULT(function) BLADE_FUNCTION_(function, "public-result", BLADE_SPELLED_(function), "0")
#define BLADE_SECRET_MEMORY BLADE_DECLARE_("secret-memory", "0", "-")
/* Masks that are 0, in globals of the module whose first values are secret. What is read of a volatile variable isn't known to any compiler. */
extern volatile unsigned __attribute__((__address_space__(1))) blade_secret_mask_32;
extern volatile unsigned long long __attribute__((__address_space__(1))) blade_secret_mask_64;
#define BLADE_SECRET(value) \
    ((__typeof__(value))((value) ^ (__typeof__(value))(sizeof(value) > 4 * sizeof(char[sizeof(value) <= 8 ? 1 : -1]) ? (unsigned long long)blade_secret_mask_64 : blade_secret_mask_32)))
#else
#define BLADE_SECRET_PARAM(function, parameter) struct blade_labels_
#define BLADE_PUBLIC_RESULT(function) struct blade_labels_
#define BLADE_SECRET_MEMORY struct blade_labels_
#define BLADE_SECRET(value) (value)
#endif
#endif
