/* The controller's two tasks, each for a thread of its own. A controller is what they are given. They end once it tells
 * them to. */
#ifndef TASKS_H
#define TASKS_H
#ifdef __cplusplus
extern "C" {
#endif

void *cycle_task(void *shared); /* every 10 milliseconds: throttle, manifold and speed */
void *crank_task(void *shared); /* at each stroke: injection and ignition */

#ifdef __cplusplus
}
#endif
#endif
