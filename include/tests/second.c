/*
 * The second unit of the header's test: it includes the header too, and the program still links.
 */
#include "fozdrik.h"
#include "fozdrik.h"

#ifdef __cplusplus
extern "C" {
#endif

int32_t second_unit(int32_t number);

#ifdef __cplusplus
}
#endif

/* The number, by way of predictors. */
int32_t second_unit(int32_t number)
{
    struct fozdrik_pmv pmv;

    fozdrik_pmv_reset(&pmv);
    fozdrik_pmv_set(&pmv, FOZDRIK_SECOND, FOZDRIK_BACKWARD, FOZDRIK_VERTICAL, number);
    return fozdrik_pmv_get(&pmv, FOZDRIK_SECOND, FOZDRIK_BACKWARD, FOZDRIK_VERTICAL);
}
