/* $dvg_turn(request, answer) for bench.sv in Icarus Verilog: dvg_turn of dvg.h. Both are 64 bits,
 * and there is one device. Verilator needs none of this. Tested, not proved. */
#include <dvg.h>
#include <vpi_user.h>

static dvg *device;

static PLI_INT32 turn(PLI_BYTE8 *unused)
{
    vpiHandle arguments = vpi_iterate(vpiArgument, vpi_handle(vpiSysTfCall, NULL));
    vpiHandle request = vpi_scan(arguments), answer = vpi_scan(arguments);
    s_vpi_value value;
    s_vpi_vecval bits[2] = {{0, 0}, {0, 0}};
    uint64_t number;
    (void)unused;
    value.format = vpiVectorVal;
    vpi_get_value(request, &value);
    number = (uint32_t)value.value.vector[0].aval;
    number |= (uint64_t)(uint32_t)value.value.vector[1].aval << 32;
    number = dvg_turn(device, number);
    bits[0].aval = (PLI_INT32)number;
    bits[1].aval = (PLI_INT32)(number >> 32);
    value.value.vector = bits;
    vpi_put_value(answer, &value, NULL, vpiNoDelay);
    vpi_free_object(arguments);
    return 0;
}

static void begin(void)
{
    s_vpi_systf_data task = {vpiSysTask, 0, "$dvg_turn", turn, NULL, NULL, NULL};
    if (dvg_new(&device) == 0) {
        vpi_register_systf(&task);
    }
}

void (*vlog_startup_routines[])(void) = {begin, NULL};
