/* message.h: why a call failed, for the thread that called; and what everybody should know. */
#ifndef PMTRACE_MESSAGE_H
#define PMTRACE_MESSAGE_H

/* Keeps the text as the thread's last message. With `_of_errno` the error's text follows, and errno stays. */
void pmtrace_message(const char *format, ...) __attribute__((format(printf, 1, 2)));
void pmtrace_message_of_errno(const char *format, ...) __attribute__((format(printf, 1, 2)));

/* The thread's last message, or an empty text. */
const char *pmtrace_last_message(void);

/* Writes a line to standard error, behind the recorder's name. errno stays. */
void pmtrace_warn(const char *format, ...) __attribute__((format(printf, 1, 2)));

#endif /* PMTRACE_MESSAGE_H */
