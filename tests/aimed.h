/*
 * Calls aimed at the roundings: at every row of every stage, and at every lift, sums that lie on a half or one part
 * below it, so that a table number that is off by one, or a half that goes the other way, shows in the output. And
 * calls aimed at the limits of the total, both ways: records that just have it, and that just have one too much.
 */
#ifndef AIMED_H
#define AIMED_H

void aimed(void);

#endif
