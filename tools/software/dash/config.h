/* What dash finds here, in place of what its configure writes: a shell for scripts, without job control, an
 * editor or the files of a folder. */
#define _GNU_SOURCE 1
#define BSD 1
#define SHELL 1
#define JOBS 0
#define SMALL 1
#define WITH_LINENO 1
#define PACKAGE_NAME "dash"
#define SIZEOF_INTMAX_T 8

#define HAVE_ALIAS_ATTRIBUTE 1
#define HAVE_ALLOCA_H 1
#define HAVE_BSEARCH 1
#define HAVE_DECL_ISBLANK 1
#define HAVE_FNMATCH 1
#define HAVE_ISALPHA 1
#define HAVE_KILLPG 1
#define HAVE_MEMPCPY 1
#define HAVE_PATHS_H 1
#define HAVE_STPCPY 1
#define HAVE_STRCHRNUL 1
#define HAVE_STRSIGNAL 1
#define HAVE_STRTOD 1
#define HAVE_STRTOIMAX 1
#define HAVE_STRTOUMAX 1
#define HAVE_SYSCONF 1

#define stat64 stat
#define lstat64 lstat
#define fstat64 fstat
#define open64 open
#define readdir64 readdir
#define dirent64 dirent
