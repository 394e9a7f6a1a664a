/* Prints what libdvbpsi reads in the tables of a transport stream, one field a line. usage: tables FILE */
#include <stdbool.h>
#include <stdint.h>
#include <stdio.h>
#include <dvbpsi/dvbpsi.h>
#include <dvbpsi/psi.h>
#include <dvbpsi/descriptor.h>
#include <dvbpsi/demux.h>
#include <dvbpsi/pat.h>
#include <dvbpsi/pmt.h>
#include <dvbpsi/nit.h>
#include <dvbpsi/bat.h>
#include <dvbpsi/tot.h>
#include <dvbpsi/dr.h>

static void say(dvbpsi_t *handle, const dvbpsi_msg_level_t level, const char *text)
{
    (void)handle;
    fprintf(stderr, "libdvbpsi %d: %s\n", level, text);
}

static void descriptors(dvbpsi_descriptor_t *d)
{
    for (; d; d = d->p_next) {
        if (d->i_tag == 0x4A) {
            dvbpsi_linkage_dr_t *l = dvbpsi_DecodeLinkageDr(d);
            printf("linkage=%d:%d:%d:%d\n", l->i_transport_stream_id, l->i_original_network_id, l->i_service_id,
                   l->i_linkage_type);
        } else if (d->i_tag == 0x52) {
            printf("component=%d\n", dvbpsi_DecodeStreamIdentifierDr(d)->i_component_tag);
        } else {
            printf("descriptor=%d:%d\n", d->i_tag, d->i_length);
        }
    }
}

static void pat(void *data, dvbpsi_pat_t *t)
{
    (void)data;
    printf("[PAT]\nts=%d\n", t->i_ts_id);
    for (dvbpsi_pat_program_t *p = t->p_first_program; p; p = p->p_next)
        printf("program=%d:%d\n", p->i_number, p->i_pid);
    dvbpsi_pat_delete(t);
}

static void pmt(void *data, dvbpsi_pmt_t *t)
{
    (void)data;
    printf("[PMT]\nprogram=%d\npcr=%d\n", t->i_program_number, t->i_pcr_pid);
    for (dvbpsi_pmt_es_t *s = t->p_first_es; s; s = s->p_next) {
        printf("stream=%d:%d\n", s->i_type, s->i_pid);
        descriptors(s->p_first_descriptor);
    }
    dvbpsi_pmt_delete(t);
}

static void nit(void *data, dvbpsi_nit_t *t)
{
    (void)data;
    printf("[NIT]\nid=%d\n", t->i_network_id);
    descriptors(t->p_first_descriptor);
    for (dvbpsi_nit_ts_t *e = t->p_first_ts; e; e = e->p_next) {
        printf("entry=%d:%d\n", e->i_ts_id, e->i_orig_network_id);
        descriptors(e->p_first_descriptor);
    }
    dvbpsi_nit_delete(t);
}

static void bat(void *data, dvbpsi_bat_t *t)
{
    (void)data;
    printf("[BAT]\nid=%d\n", t->i_extension);
    descriptors(t->p_first_descriptor);
    for (dvbpsi_bat_ts_t *e = t->p_first_ts; e; e = e->p_next) {
        printf("entry=%d:%d\n", e->i_ts_id, e->i_orig_network_id);
        descriptors(e->p_first_descriptor);
    }
    dvbpsi_bat_delete(t);
}

static void tot(void *data, dvbpsi_tot_t *t)
{
    (void)data;
    uint64_t utc = t->i_utc_time;
    printf("[%s]\nmjd=%d\ntime=%02x:%02x:%02x\n", t->i_table_id == 0x70 ? "TDT" : "TOT", (int)(utc >> 24),
           (int)(utc >> 16 & 255), (int)(utc >> 8 & 255), (int)(utc & 255));
    descriptors(t->p_first_descriptor);
    dvbpsi_tot_delete(t);
}

static void attach(dvbpsi_t *handle, uint8_t table, uint16_t extension, void *data)
{
    (void)data;
    if (table == 0x40)
        dvbpsi_nit_attach(handle, table, extension, nit, NULL);
    else if (table == 0x4A)
        dvbpsi_bat_attach(handle, table, extension, bat, NULL);
    else if (table == 0x70 || table == 0x73)
        dvbpsi_tot_attach(handle, table, extension, tot, NULL);
}

int main(int argc, char **argv)
{
    static const int pids[] = { 0x0000, 0x0100, 0x0010, 0x0011, 0x0014 };
    dvbpsi_t *handles[5];
    uint8_t packet[188];
    if (argc != 2)
        return 2;
    FILE *file = fopen(argv[1], "rb");
    if (!file)
        return 1;
    for (int i = 0; i < 5; i++)
        handles[i] = dvbpsi_new(say, DVBPSI_MSG_ERROR);
    dvbpsi_pat_attach(handles[0], pat, NULL);
    dvbpsi_pmt_attach(handles[1], 3, pmt, NULL);
    for (int i = 2; i < 5; i++)
        dvbpsi_AttachDemux(handles[i], attach, NULL);
    while (fread(packet, 188, 1, file) == 1)
        for (int i = 0; i < 5; i++)
            if (((packet[1] & 31) << 8 | packet[2]) == pids[i])
                dvbpsi_packet_push(handles[i], packet);
    fclose(file);
    return 0;
}
