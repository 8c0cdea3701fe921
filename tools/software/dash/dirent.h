/* A folder can't be listed. */
#ifndef DASH_DIRENT_H
#define DASH_DIRENT_H

typedef struct folder DIR;
struct dirent { char d_name[1]; };

DIR *opendir(const char *path);
struct dirent *readdir(DIR *folder);
int closedir(DIR *folder);

#endif
