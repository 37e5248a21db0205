#include "directory.h"

const struct resource DIRECTORY[DIRECTORY_LENGTH] = {
    {"/oic/sec/doxm", TILLERCLOVER_DOXM}, {"/oic/sec/pstat", TILLERCLOVER_PSTAT}, {"/oic/sec/cred", TILLERCLOVER_CRED},
    {"/oic/sec/acl2", TILLERCLOVER_ACL2}, {"/oic/sec/roles", TILLERCLOVER_ROLES}, {"/weight", TILLERCLOVER_WEIGHT},
    {"/tare", TILLERCLOVER_TARE},         {"/zero", TILLERCLOVER_ZERO},           {"/ticket", TILLERCLOVER_TICKET},
    {"/lamp", TILLERCLOVER_LAMP},         {"/calib", TILLERCLOVER_CALIB},         {"/display", TILLERCLOVER_DISPLAY},
    {"/yard", TILLERCLOVER_YARD},
};

const char *directory_path(unsigned number)
{
    for (size_t i = 0; i < DIRECTORY_LENGTH; i++) {
        if ((unsigned)DIRECTORY[i].number == number) {
            return DIRECTORY[i].path;
        }
    }
    return "?";
}
