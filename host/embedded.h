/* What of the page stands in files of its own, in host/page/. Each ends with a zero byte. */
#ifndef OCTALMURE_EMBEDDED_H
#define OCTALMURE_EMBEDDED_H

extern const char page_template[], picture_template[], style_sheet[], script[];

#endif
