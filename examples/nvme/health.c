/* How the disk is: errors of the store, critical warnings, and events that tell hosts of these. */
#include "target.h"

void health_note(struct target *target, const struct job *job) {
    if (job->status != STATUS_WRITE_FAULT && job->status != STATUS_UNRECOVERED_READ) return;
    pthread_mutex_lock(&target->errors.lock);
    target->errors.count++;
    target->errors.status = job->status;
    target->errors.block = job->at >> LBA_SHIFT;
    pthread_mutex_unlock(&target->errors.lock);
}

struct errors health_errors(struct target *target) {
    pthread_mutex_lock(&target->errors.lock);
    struct errors errors = {.count = target->errors.count, .status = target->errors.status, .block = target->errors.block};
    pthread_mutex_unlock(&target->errors.lock);
    return errors;
}

uint8_t health_warnings(const struct target *target, const struct controller *controller) {
    uint8_t warnings = 0;
    if (target->store.failed) warnings |= WARNS_RELIABILITY | WARNS_READ_ONLY;
    if (KELVIN >= controller->over || KELVIN <= controller->under) warnings |= WARNS_TEMPERATURE;
    return warnings;
}

/* One request is answered by one event: first that the store has failed. */
static void tell(struct controller *controller, uint8_t warnings, uint32_t what) {
    struct command *command = controller->events[0];
    controller->event_count--;
    for (uint32_t i = 0; i < controller->event_count; i++) controller->events[i] = controller->events[i + 1];
    controller->told |= warnings;
    command_resume(command, EVENT_OF_HEALTH | what << EVENT_WHAT | (uint32_t)LOG_HEALTH << EVENT_PAGE);
}

void events_tell(struct controller *controller) {
    if (controller->event_count == 0 || controller->discovery) return;
    const struct target *target = controller->admin->target;
    uint32_t due = health_warnings(target, controller) & controller->event_mask & ~(uint32_t)controller->told;
    if (due & (WARNS_RELIABILITY | WARNS_READ_ONLY))
        tell(controller, WARNS_RELIABILITY | WARNS_READ_ONLY, EVENT_RELIABILITY);
    else if (due)
        tell(controller, WARNS_TEMPERATURE, EVENT_TEMPERATURE);
}

void events_drop(struct controller *controller) {
    uint32_t count = controller->event_count;
    controller->event_count = 0;
    controller->told = 0;
    for (uint32_t i = 0; i < count; i++) command_forget(controller->events[i]);
}

/* The request is kept until there is something to tell. */
void run_async_event(struct command *command) {
    struct controller *controller = command->queue->controller;
    if (controller->event_count == MOST_ASYNC_EVENTS) {
        command_complete(command, invalid(STATUS_ASYNC_EVENT_LIMIT));
        return;
    }
    controller->events[controller->event_count++] = command;
    command_hold(command);
    events_tell(controller);
}
