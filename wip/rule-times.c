#include <stdio.h>
#include <string.h>
#include <stdlib.h>
#include <time.h>
#include <ruonfidd.h>
#define HALL 11344
static double now(void){struct timespec t;clock_gettime(CLOCK_MONOTONIC,&t);return t.tv_sec*1e9+t.tv_nsec;}
static int cmp(const void*a,const void*b){double x=*(double*)a,y=*(double*)b;return (x>y)-(x<y);}
static uint8_t table[600];static size_t tl;
static void build(const char*acts,int doublings,const uint8_t*tok){ // acts: pairs like r0 w3 as chars: 'r','a'+tray
  size_t n=strlen(acts)/2;tl=0;table[tl++]=7;int term=0;
  for(int i=(int)n-1;i>=0;i--){table[tl++]=acts[2*i]=='r'?9:10;table[tl++]=acts[2*i+1]-'a';table[tl++]=term;term++;}
  table[tl++]=6;table[tl++]=term;term++;
  for(int d=0;d<doublings;d++){table[tl++]=5;table[tl++]=term;table[tl++]=term;term++;}
  for(int i=0;i<16;i++)if(tok[i]){table[tl++]=12;table[tl++]=i;table[tl++]=tok[i];}
  table[tl++]=13;table[tl++]=term;
}
static uint8_t hall[HALL],work[HALL];
static uint32_t tally[3];static size_t place,done;
static int run(uint8_t*h,const uint8_t*c,size_t n){return ruonfidd_run(table,tl,h,HALL,c,n,tally,&place,&done);}
static double timed(const uint8_t*c,size_t n){static double s[400];
  for(int b=0;b<400;b++){double t=now();for(int i=0;i<50;i++){memcpy(work,hall,HALL);run(work,c,n);}s[b]=(now()-t)/50;}
  qsort(s,400,sizeof(double),cmp);return s[100];}
static void measure(const char*name,const char*acts,int doublings,const uint8_t*tok,int inner,int pre_commit,int kind){
  build(acts,doublings,tok);int N=1<<doublings;
  int r=ruonfidd_open_hall(table,tl,hall,HALL,&place);if(r){printf("%s open %d at %zu\n",name,r,place);return;}
  static uint8_t c[4000];size_t n=0;
  for(int p=0;p<N;p++){c[n++]=1;c[n++]=p;}
  for(int p=0;p<N;p++)for(int k=0;k<inner;k++){c[n++]=2;c[n++]=p;c[n++]=0;}
  if(pre_commit){c[n++]=1;c[n++]=N-1;}
  ruonfidd_fresh_tally(tally);
  r=run(hall,c,n);if(r){printf("%s prep %d at %zu\n",name,r,place);return;}
  n=0;int m=0;int top=N-1-(pre_commit?1:0);
  for(int p=top;p>=0;p--){c[n++]=kind;c[n++]=p;if(kind==2)c[n++]=0;m++;}
  ruonfidd_fresh_tally(tally);memcpy(work,hall,HALL);
  r=run(work,c,n);if(r){printf("%s list %d at %zu\n",name,r,place);return;}
  uint8_t kk,rule=0;(void)kk;
  double t0=timed(c,0),t1=timed(c,n);
  printf("%-34s %7.2f\n",name,(t1-t0)/m);
}
int main(void){
  uint8_t full[16];memset(full,255,16);
  uint8_t none[16]={0};
  uint8_t one[16];memset(one,255,16);one[15]=1;
  uint8_t gap[16];memset(gap,255,16);gap[15]=0;
  measure("ARDOK log 0","ra",5,full,0,0,2);
  measure("ARDOK log 3 (rd)","rarbrcrd",5,full,3,0,2);
  measure("ARDOK log 3 (rd wt rd)","rawbrcrd",5,full,3,0,2);
  measure("ARDOK log 15 (rd)","rarbrcrdrerfrgrhrirjrkrlrmrnrorp",5,full,15,0,2);
  measure("ARDOK log 15 (rd wt by turns)","rawbrcwdrewfrgwhriwjrkwlrmwnrorp",5,full,15,0,2);
  measure("ARDF log 0","rp",5,gap,0,0,2);
  measure("ARDF log 3","rarbrcrp",5,gap,3,0,2);
  measure("ARDF log 15","rarbrcrdrerfrgrhrirjrkrlrmrnrorp",5,gap,15,0,2);
  measure("ATOK log 1 rd","ra",5,full,1,0,1);
  measure("ATOK log 3 rd","rarbrc",5,full,3,0,1);
  measure("ATOK log 2 rd wt","rawb",5,full,2,0,1);
  measure("ATOK log 4 rd rd wt wt","rarbwcwd",4,full,4,0,1);
  measure("ATOK log 16 rd","rarbrcrdrerfrgrhrirjrkrlrmrnrorp",5,full,16,0,1);
  measure("ATOK log 16 rd wt by turns","rawbrcwdrewfrgwhriwjrkwlrmwnrowp",3,full,16,0,1);
  measure("ATOK log 16 8 rd 8 wt","rarbrcrdrerfrgrhwiwjwkwlwmwnwowp",3,full,16,0,1);
  measure("ATOK log 16 wt","wawbwcwdwewfwgwhwiwjwkwlwmwnwowp",2,full,16,0,1);
  measure("ATFAIL log 1","rp",5,one,1,1,1);
  measure("ATFAIL log 3","rarbrp",5,one,3,1,1);
  measure("ATFAIL log 16","rarbrcrdrerfrgrhrirjrkrlrmrnrorp",5,one,16,1,1);
  measure("ATOK 8 own writes read","wawbwcwdwewfwgwhrarbrcrdrerfrgrh",2,full,16,0,1);
  measure("ARDOK log 15 own","wawbwcwdwewfwgwhrarbrcrdrerfrgrh",4,full,15,0,2);
  return 0;}
