/*
 * Calls of the valve: by chance, aimed at every limit, and series of asks and makes on one record.
 */
#ifndef VALVE_H
#define VALVE_H

void valve_calls(void);

#endif
