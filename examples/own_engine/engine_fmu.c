/* The engine of examples/own_engine/turbo.py as an FMU for co-simulation (FMI 2.0), in the units that such a model has: per cent,
   newton metres and seconds. examples/own_engine/make_fmu.py builds it, and examples/own_engine/engine_fmu.toml joins it to the unit.

   The types and names below are those that the standard gives a library. Its description is examples/own_engine/engine_fmu.xml. */

#include <math.h>
#include <stdlib.h>
#include <string.h>

typedef double fmi2Real;
typedef int fmi2Integer, fmi2Boolean, fmi2Type;
typedef const char *fmi2String;
typedef unsigned int fmi2ValueReference;
typedef void *fmi2Component;
typedef enum { fmi2OK, fmi2Warning, fmi2Discard, fmi2Error, fmi2Fatal, fmi2Pending } fmi2Status;

#define GUID "{5d4d6c1e-egasim-turbo}"
#define KT 2500  /* the torque of a load of 100 %, in tenths of Nm: `kt` of the calibration */

/* The variables, by their value references. */
enum { THROTTLE, IGNITION, PLATE, LOAD, TORQUE, CHARGE_TIME, BOOST_TIME, REALS };

struct engine {
    fmi2Real reals[REALS];
    fmi2Boolean on;
    double boost, charge; /* from 0 to 1; per mille */
};

static void at_rest(struct engine *engine)
{
    *engine = (struct engine){ .charge = 40, .on = 1 };
    engine->reals[CHARGE_TIME] = 0.04;
    engine->reals[BOOST_TIME] = 0.25;
}

const char *fmi2GetTypesPlatform(void) { return "default"; }
const char *fmi2GetVersion(void) { return "2.0"; }

fmi2Component fmi2Instantiate(fmi2String name, fmi2Type type, fmi2String guid, fmi2String resources,
                              const void *functions, fmi2Boolean visible, fmi2Boolean logging)
{
    (void)name, (void)resources, (void)functions, (void)visible, (void)logging;
    struct engine *engine = type == 1 && strcmp(guid, GUID) == 0 ? malloc(sizeof *engine) : NULL;
    if (engine)
        at_rest(engine);
    return engine;
}

void fmi2FreeInstance(fmi2Component engine) { free(engine); }

fmi2Status fmi2SetupExperiment(fmi2Component engine, fmi2Boolean has_tolerance, fmi2Real tolerance, fmi2Real start,
                               fmi2Boolean has_stop, fmi2Real stop)
{
    (void)engine, (void)has_tolerance, (void)tolerance, (void)start, (void)has_stop, (void)stop;
    return fmi2OK;
}

fmi2Status fmi2EnterInitializationMode(fmi2Component engine) { return (void)engine, fmi2OK; }
fmi2Status fmi2ExitInitializationMode(fmi2Component engine) { return (void)engine, fmi2OK; }
fmi2Status fmi2Terminate(fmi2Component engine) { return (void)engine, fmi2OK; }
fmi2Status fmi2Reset(fmi2Component engine) { return at_rest(engine), fmi2OK; }

fmi2Status fmi2SetReal(fmi2Component of, const fmi2ValueReference places[], size_t count, const fmi2Real values[])
{
    for (size_t one = 0; one < count; one++) {
        if (places[one] >= REALS)
            return fmi2Error;
        ((struct engine *)of)->reals[places[one]] = values[one];
    }
    return fmi2OK;
}

fmi2Status fmi2GetReal(fmi2Component of, const fmi2ValueReference places[], size_t count, fmi2Real values[])
{
    for (size_t one = 0; one < count; one++) {
        if (places[one] >= REALS)
            return fmi2Error;
        values[one] = ((struct engine *)of)->reals[places[one]];
    }
    return fmi2OK;
}

fmi2Status fmi2SetBoolean(fmi2Component of, const fmi2ValueReference places[], size_t count, const fmi2Boolean values[])
{
    for (size_t one = 0; one < count; one++)
        ((struct engine *)of)->on = values[one];
    return (void)places, fmi2OK;
}

fmi2Status fmi2GetBoolean(fmi2Component of, const fmi2ValueReference places[], size_t count, fmi2Boolean values[])
{
    for (size_t one = 0; one < count; one++)
        values[one] = ((struct engine *)of)->on;
    return (void)places, fmi2OK;
}

/* It has no whole numbers. */
fmi2Status fmi2SetInteger(fmi2Component of, const fmi2ValueReference places[], size_t count, const fmi2Integer values[])
{
    return (void)of, (void)places, (void)values, count ? fmi2Error : fmi2OK;
}

fmi2Status fmi2GetInteger(fmi2Component of, const fmi2ValueReference places[], size_t count, fmi2Integer values[])
{
    return (void)of, (void)places, (void)values, count ? fmi2Error : fmi2OK;
}

/* The charge follows the throttle, and the boost above it; the boost follows the charge slowly. */
fmi2Status fmi2DoStep(fmi2Component of, fmi2Real now, fmi2Real step, fmi2Boolean never_back)
{
    struct engine *engine = of;
    fmi2Real *reals = engine->reals;
    (void)now, (void)never_back;
    double position = reals[THROTTLE] * 10;
    double target = fmax(40, position * (1 + engine->boost));
    engine->charge += (target - engine->charge) / (reals[CHARGE_TIME] / step);
    engine->boost += (fmin(1, engine->charge / 1000) - engine->boost) / (reals[BOOST_TIME] / step);
    double load = rint(engine->charge);
    reals[PLATE] = reals[THROTTLE];
    reals[LOAD] = load / 10;
    reals[TORQUE] = engine->on ? floor(load * KT * rint(reals[IGNITION] * 10) / 1000000) / 10 : 0;
    return fmi2OK;
}
