/* The speed of the C variants by every compiler that is tried, and of the server beside the fastest of them. */
#ifndef SPEED_COMPILERS_H
#define SPEED_COMPILERS_H

/* Holds every variant by every compiler to the server's answers. Says which one differs, and answers with 0, where one
 * does. To be called first. */
int compilers_agree(void);

/* Shows the speed of each, and the server's beside that of the fastest by each compiler. */
void show_compilers(void);

#endif
