/* All timed code, whose objects lie in a folder called timed, in one section at the address PLACE. bench/run links with several
   places in a page, and takes the least time of each function. */
SECTIONS
{
    timed PLACE : { */timed/*(.text .text.*) }
}
INSERT AFTER .text;
