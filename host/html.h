/* Text in an HTML document. */
#ifndef OCTALMURE_HTML_H
#define OCTALMURE_HTML_H

#include <stdio.h>

/* A stream: what is printed to it stands in the document as text, at once. No sign of it is taken for one of HTML's, in text or
   between quotation marks; a name that is marked (called.h) is set apart, so that it does not turn the text beside it round. It is
   closed before the document is. NULL if there is none to be had, and errno says why. */
FILE *open_text(FILE *document);

#endif
