/* The register's calls, run on registers built for the purpose: a line to a case. */
#include "calls.h"

int main(void) {
    soundness_lines();
    change_lines();
    order_lines();
    gate_lines();
    plan_lines();
    plain_lines();
    plan_text_lines();
    word_lines();
    version_lines();
    book_entries_lines();
    fault_lines();
    why_lines();
    proposal_lines();
    table_lines();
    lent_lines();
    text_lines();
    twin_lines();
    return 0;
}
