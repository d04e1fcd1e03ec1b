/* Of VPI (IEEE 1364-2005, annex G) what vpi.c uses, so that the module is compiled where no simulator is. */
#ifndef ZEBLUDOR_VPI_H
#define ZEBLUDOR_VPI_H

#include <stdint.h>

typedef int32_t PLI_INT32;
typedef uint32_t PLI_UINT32;
typedef char PLI_BYTE8;
typedef PLI_UINT32 *vpiHandle;

enum { vpiSysTfCall = 85, vpiArgument = 89 };                 /* objects */
enum { vpiStringVal = 8, vpiIntVal = 6, vpiNoDelay = 1 };     /* forms of values, and when one is put */
enum { vpiSysTask = 1, vpiSysFunc = 2, vpiIntFunc = 1 };      /* what is registered */
enum { vpiFinish = 67 };                                      /* an order to the simulator */

typedef struct t_vpi_value {
    PLI_INT32 format;
    union {
        PLI_BYTE8 *str;
        PLI_INT32 scalar;
        PLI_INT32 integer;
        double real;
        void *other; /* a time, a vector, a strength */
    } value;
} s_vpi_value;

typedef struct t_vpi_systf_data {
    PLI_INT32 type, sysfunctype;
    const PLI_BYTE8 *tfname;
    PLI_INT32 (*calltf)(PLI_BYTE8 *), (*compiletf)(PLI_BYTE8 *), (*sizetf)(PLI_BYTE8 *);
    PLI_BYTE8 *user_data;
} s_vpi_systf_data;

extern vpiHandle vpi_register_systf(s_vpi_systf_data *told);
extern vpiHandle vpi_handle(PLI_INT32 type, vpiHandle of);
extern vpiHandle vpi_iterate(PLI_INT32 type, vpiHandle of);
extern vpiHandle vpi_scan(vpiHandle them);
extern void vpi_get_value(vpiHandle of, s_vpi_value *to);
extern vpiHandle vpi_put_value(vpiHandle of, s_vpi_value *value, void *when, PLI_INT32 how);
extern PLI_INT32 vpi_printf(const PLI_BYTE8 *format, ...);
extern PLI_INT32 vpi_control(PLI_INT32 order, ...);

/* Icarus Verilog's own: the status with which it ends. Other simulators have no such call. */
extern void vpip_set_return_value(int value) __attribute__((weak));

#endif
