/* libstdc++'s own one, and behind it what isn't there of what it was made for. What it has compiled already of its templates
   is made anew, in the module. */
#ifndef WATHREAD_CXX_CONFIG
#define WATHREAD_CXX_CONFIG
#include_next <bits/c++config.h>

#undef _GLIBCXX_EXTERN_TEMPLATE
#define _GLIBCXX_EXTERN_TEMPLATE 0
#undef _GLIBCXX_USE_WCHAR_T
#undef _GLIBCXX_HAVE_WCHAR_H
#undef _GLIBCXX_HAVE_MBSTATE_T
#undef _GLIBCXX_HAVE_UCHAR_H
#undef _GLIBCXX_HAVE_WCTYPE_H
#undef _GLIBCXX_HAVE_GETS
#undef _GLIBCXX_USE_FLOAT128

/* By which it tells letters. */
enum {
    _ISupper = 1,
    _ISlower = 2,
    _ISalpha = 4,
    _ISdigit = 8,
    _ISxdigit = 16,
    _ISspace = 32,
    _ISprint = 64,
    _ISpunct = 128,
    _IScntrl = 256,
    _ISblank = 512
};

#endif
