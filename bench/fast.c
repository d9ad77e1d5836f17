// An unproved C rendering of document 01's machine over one lent byte slice, written for speed: the mark to measure ours against.
// `gcc -O3 fast.c -o fast`; `fast batch` takes the same stream as `shelf`; `fast bench REPS CASE...` times case files.
// Variants by -D: LAYOUT 8 (info rows of 8 bytes + argument rows of 16) | 24 | 32 (one row) | 0 (struct of arrays, constant offsets)
//   COMPRESS 0 none|1 update the slot read|2 and halve chains   POOL 0 circle of links|1 ring of place numbers
//   COPY 1 collect once, emit for each alternative|0 each alternative by itself   INPLACE last alternative reuses the parent's nodes
//   WRITER 2 size pass, write pass|1 one pass   ALLOC 0 bump|1 bitmap, lowest free first   SOLO short cut for a pool of one
#include <stdint.h>
#include <string.h>
#include <stdio.h>
#include <stdlib.h>
#include <time.h>
#ifndef LAYOUT
#define LAYOUT 8
#endif
#ifndef COMPRESS
#define COMPRESS 2
#endif
#ifndef POOL
#define POOL 0
#endif
#ifndef COPY
#define COPY 1
#endif
#ifndef NOCHECK
#define NOCHECK 1
#endif
#ifndef INPLACE
#define INPLACE 1
#endif
#ifndef WRITER
#define WRITER 2
#endif
#ifndef ALLOC
#define ALLOC 0
#endif
#ifndef ARGCOPY
#define ARGCOPY 0
#endif
#ifndef WALK
#define WALK 0
#endif
typedef uint8_t u8; typedef uint16_t u16; typedef uint32_t u32; typedef uint64_t u64;
#define INL static inline __attribute__((always_inline))
#define LIKELY(x) __builtin_expect(!!(x),1)
#define UNLIKELY(x) __builtin_expect(!!(x),0)
INL u16 g16(const u8*p){u16 v;memcpy(&v,p,2);return v;}
INL u32 g32(const u8*p){u32 v;memcpy(&v,p,4);return v;}
INL u64 g64(const u8*p){u64 v;memcpy(&v,p,8);return v;}
INL void p16(u8*p,u16 v){memcpy(p,&v,2);}
INL void p32(u8*p,u32 v){memcpy(p,&v,4);}
INL void p64(u8*p,u64 v){memcpy(p,&v,8);}

enum {TYPE=1,CONS,FUNC,SPLIT,RULE,RIGHT,CON,CALL,SLOT,FRESH,NONE};
// ---------------------------------------------------------------- check
typedef struct { u32 code_len; u32 types_end; u32 ntypes,ncons,nfuncs; u16 type[64]; u8 arity[512]; } Shape; // local: refusals write nothing lent
#define RECLEN(k) ((u32)((0x122222232220ull>>(4*(k)))&15))

static inline unsigned con_walk(const unsigned char*b,unsigned n){ unsigned p=0; for(;;){ unsigned c=b[p+1]; if(n<c) return b[p+3+2*n]; n-=c; p+=2+2*c; } }
INL int64_t check_term(const u8*b,u32 len,u32*ppos,const Shape*s,int slots,u32*code){ // RIGHT and its term
  u32 at=*ppos; if(at>=len) return len;
  if(b[at]!=RIGHT) return at;
  u32 fresh=b[at+1]; if(fresh>8) return at;
  u32 wanted=1,read=0,c=2*fresh; at+=2;
  while(wanted){
    if(at>=len) return len;
    if(read==255) return at;
    u32 k=b[at];
    if(k<CON||k>FRESH) return at;
    u32 n=b[at+1];
    if(k==CON){ if(n>=s->ncons) return at; wanted+= WALK&&slots? con_walk(b,n):s->arity[n]; c+=3; }
    else if(k==CALL){ if(n>=s->nfuncs) return at; wanted+=s->arity[256+n]; c+=3; }
    else if(k==SLOT){ if((int)n>=slots) return at; c+=11; }
    else { if(n>=fresh) return at; c+=2; }
    read++; wanted--; at+=2;
  }
  *ppos=at; *code+=c; return -1;
}
static __attribute__((noinline)) int64_t check_book(const u8*b,u32 len,Shape*s){
  if(len>32768) return 32768;
  u32 at=0,nf=0;
  while(at<len){
    u32 k=b[at]; if(k<1||k>11) return at;
    u32 l=RECLEN(k); if(len-at<l) return at;
    if(k==FUNC){ u32 a=b[at+1]; if(a>8||nf==256) return at; s->arity[256+nf++]=a; }
    at+=l;
  }
  s->nfuncs=nf;
  u32 pos=0,nt=0,nc=0;
  while(pos<len&&b[pos]==TYPE){
    u32 c=b[pos+1]; if(c<1||c>32||nt==64) return pos;
    s->type[nt++]=nc|c<<8; pos+=2;
    for(u32 i=0;i<c;i++){
      if(pos>=len) return pos;
      if(b[pos]!=CONS||b[pos+1]>8||nc==256) return pos;
      s->arity[nc++]=b[pos+1]; pos+=2;
    }
  }
  s->types_end=pos; s->ntypes=nt; s->ncons=nc;
  u32 code=0;
  struct {u8 con,left,slot,n;} fr[64]; u8 depth[72]; // depth: position length, 0x80 split
  while(pos<len){
    if(b[pos]!=FUNC) return pos;
    u32 n=b[pos+1],d=0; pos+=2;
    for(u32 i=0;i<n;i++) depth[i]=1;
    for(;;){ // a tree is due
      if(pos>=len) return len;
      u32 k=b[pos];
      if(k==SPLIT){
        u32 sl=b[pos+1],ty=b[pos+2];
        if(sl>=n||depth[sl]>=8) return pos;
        if(ty>=nt) return pos;
        u32 f=s->type[ty]&255,c=s->type[ty]>>8,sum=0;
        for(u32 i=0;i<c;i++){ u32 a=s->arity[f+i]; if(n+a>64) return pos; sum+=a; }
        code+=18+8*c+sum; pos+=3;
        fr[d].con=f; fr[d].left=c-1; fr[d].slot=sl; fr[d].n=n; d++;
        u32 dp=depth[sl]+1; depth[sl]|=0x80;
        for(u32 a=s->arity[f];a;a--) depth[n++]=dp;
        continue;
      }
      if(k==RULE){
        u32 kk=b[pos+1]; if(kk<1||kk>16) return pos;
        pos+=2;
        for(u32 i=0;i<kk;i++){ int64_t e=check_term(b,len,&pos,s,n,&code); if(e>=0) return e; }
        code+= kk==1?2:1;
      } else if(k==NONE){ pos++; code++; }
      else return pos;
      // next child
      while(d&&fr[d-1].left==0){ d--; depth[fr[d].slot]&=0x7f; }
      if(!d) break;
      fr[d-1].left--; fr[d-1].con++; n=fr[d-1].n;
      u32 dp=(depth[fr[d-1].slot]&0x7f)+1;
      for(u32 a=s->arity[fr[d-1].con];a;a--) depth[n++]=dp;
    }
  }
  s->code_len=code; return -1;
}
static __attribute__((noinline)) int64_t check_question(const u8*q,u32 len,const Shape*s){
  u32 at=0,c=0;
  while(at<len){ u32 k=q[at]; if(k<1||k>11) return at; u32 l=RECLEN(k); if(len-at<l) return at; at+=l; }
  at=0; int64_t e=check_term(q,len,&at,s,0,&c); if(e>=0) return e;
  return at<len?(int64_t)at:-1;
}
// ---------------------------------------------------------------- work memory
#define W_START 0        // u32[256]
#define W_ARITY 1024     // u8[1024] by head: 0..255 constructors, 256..511 functions, 512 variable
#define W_TYPE 2048      // u16[64]
#define W_PRE 2176       // u16[320]
#define W_SLOT 2816      // 16 bytes x 64
#define W_CON 3840       // u16[256]: type | 5*(1+index) << 8
#define W_FIX 4352
#define PLACE 24
#define NIL 0xFFFFu
// ---------------------------------------------------------------- compile
static __attribute__((noinline)) void compile(const u8*b,u32 len,const Shape*s,u8*w,u8*code){
  u32 pos=s->types_end,o=0,fn=0; u8*sl=w+W_SLOT;
  struct {u32 gos; u8 con,first,left,slot,n;} fr[64];
  while(pos<len){
    p32(w+W_START+4*fn++,o);
    u32 n=b[pos+1],d=0; pos+=2;
    for(u32 i=0;i<n;i++){ p16(sl+16*i,0x0130); p64(sl+16*i+2,i+1); }
    for(;;){
      u32 k=b[pos];
      if(k==SPLIT){
        u32 slot=b[pos+1],ty=b[pos+2]; pos+=3;
        u32 f=s->type[ty]&255,c=s->type[ty]>>8;
        p64(code+o,g64(sl+16*slot)); p16(code+o+8,g16(sl+16*slot+8)); o+=10;
        code[o]=0x31; code[o+1]=ty; o+=2;
        u32 gos=o; o+=5*(c+1);
        code[gos]=0x32; p32(code+gos+1,o);
        for(u32 i=0;i<c;i++){
          for(u32 a=s->arity[f+i];a;a--) code[o++]=0x35;
          code[o]=0x38; code[o+1]=0; code[o+2]=f+i; o+=3;
        }
        code[o++]=0x3A;
        fr[d].gos=gos+5; fr[d].con=f; fr[d].first=f; fr[d].left=c-1; fr[d].slot=slot; fr[d].n=n; d++;
      } else {
        if(k==RULE){
          u32 kk=b[pos+1]; pos+=2;
          for(u32 i=0;i<kk;i++){
            u32 fresh=b[pos+1]; pos+=2;
            for(u32 v=0;v<fresh;v++){ code[o]=0x36; code[o+1]=v; o+=2; }
            u32 st=pos,wanted=1;
            while(wanted){ u32 r=b[pos],x=b[pos+1]; pos+=2; wanted--; if(r==CON) wanted+=s->arity[x]; else if(r==CALL) wanted+=s->arity[256+x]; }
            for(u32 at=pos;at>st;){
              at-=2; u32 r=b[at],x=b[at+1];
              if(r<=CALL){ code[o]=0x38; code[o+1]=r-CON; code[o+2]=x; o+=3; }
              else if(r==FRESH){ code[o]=0x37; code[o+1]=x; o+=2; }
              else { p64(code+o,g64(sl+16*x)); p16(code+o+8,g16(sl+16*x+8)); code[o+10]=0x33; o+=11; }
            }
          }
          if(kk==1){ code[o]=0x34; code[o+1]=0x39; o+=2; } else code[o++]=0x3B;
        } else { pos++; code[o++]=0x3C; }
        while(d&&fr[d-1].left==0) d--;
        if(!d) break;
        fr[d-1].left--; fr[d-1].con++; fr[d-1].gos+=5;
      }
      u32 t=d-1; // child fr[t].con starts here
      code[fr[t].gos]=0x32; p32(code+fr[t].gos+1,o);
      n=fr[t].n; u32 sp=fr[t].slot; u16 h=g16(sl+16*sp)+0x100; u64 st=g64(sl+16*sp+2); u32 sh=8*(g16(sl+16*sp)>>8);
      for(u32 a=0,e=s->arity[fr[t].con];a<e;a++,n++){ p16(sl+16*n,h); p64(sl+16*n+2,st|(u64)(a+1)<<sh); }
    }
  }
}
// ---------------------------------------------------------------- machine
// Version 3: everything is an index off two bases (w, code). Head word: kind<<8 | symbol in 10 bits; during a split bit 15
// marks "in R0" and bit 14 "in this alternative's own part". Multi-step LOADs do no forward checks: every proper prefix was
// branched on in this same code run and its slot then updated to the node itself.
typedef struct { u32 turns,nodes,begun,split,values,failed,misfits; } Counts;
typedef u64 R;
#define G16(o) g16(w+(o))
#define P16(o,v) p16(w+(o),v)
#if LAYOUT==0
#define NCAP 16385
#define O_HEAD W_FIX
#define O_LINK (O_HEAD+2*NCAP)
#define O_COPY (O_LINK+2*NCAP)
#define O_PROG (O_COPY+2*NCAP)
#define O_ARGS ((O_PROG+NCAP+15)&~15)
#define HEADO(n) (O_HEAD+2*(R)(n))
#define PROGO(n) (O_PROG+(R)(n))
#define LINKO(n) (O_LINK+2*(R)(n))
#define COPYO(n) (O_COPY+2*(R)(n))
#define ARGS(n) (O_ARGS+16*(R)(n))
#define NODES_END(limit) (O_ARGS+16*NCAP)
#define NEWHEAD(n,h) do{ P16(HEADO(n),h); w[PROGO(n)]=0; }while(0)
#elif LAYOUT==8
#define HEADO(n) (W_FIX+8*(R)(n))
#define PROGO(n) (HEADO(n)+2)
#define LINKO(n) (HEADO(n)+4)
#define COPYO(n) (HEADO(n)+6)
#define ABASE(limit) (W_FIX+((8*((limit)+1)+15)&~15))
#define ARGS(n) (abase+16*(R)(n))
#define NODES_END(limit) (ABASE(limit)+16*((limit)+1))
#define NEWHEAD(n,h) p64(w+HEADO(n),(u64)(h))
#else
#define HEADO(n) (W_FIX+LAYOUT*(R)(n))
#define PROGO(n) (HEADO(n)+2)
#define LINKO(n) (HEADO(n)+4)
#define COPYO(n) (HEADO(n)+6)
#define ARGS(n) (HEADO(n)+8)
#define NODES_END(limit) (W_FIX+LAYOUT*((limit)+1))
#define NEWHEAD(n,h) p32(w+HEADO(n),(u32)(h))
#endif
#define HD(n) ((R)G16(HEADO(n)))
#define LINK(n) ((R)G16(LINKO(n)))
#define ARG(n,i) ((R)G16(ARGS(n)+2*(i)))
#define PROG(n) (w[PROGO(n)])
#define VAR 0x200u
#define FWD 0x300u
#define COL 0x8000u
#define OWN 0x4000u
#if COMPRESS==2
#define CHASE(t,hd) do{ R n1_=ARG(t,0); R h1_=HD(n1_); if(h1_>=FWD){ R n2_=ARG(n1_,0); P16(ARGS(t),n2_); t=n2_; hd=HD(t);} else { t=n1_; hd=h1_; } }while(hd>=FWD)
#else
#define CHASE(t,hd) do{ t=ARG(t,0); hd=HD(t); }while(hd>=FWD)
#endif
#if ALLOC==0
#define TAKE() (next++)
#else
#define TAKE() ({ if(UNLIKELY(!cur)){ do{ cw++; cur=g64(freebits+8*cw);}while(!cur);} R n_=64*cw+__builtin_ctzll(cur); cur&=cur-1; next++; n_; })
#endif
#define FULL() (next>=lim)
#if COMPRESS>=1
#define UPD(slot,t) P16(slot,t)
#else
#define UPD(slot,t)
#endif
#ifndef ROOT
#define ROOT 1
#endif
#ifndef SOLO
#define SOLO 1
#endif
#ifndef FUSE
#define FUSE 1
#endif
#define AR(hd) ((R)w[W_ARITY+(hd)])

INL int64_t term_pass(u8*restrict w,R abase,R nil,R root,u8*restrict out,int64_t room,const int wr,u8*restrict seenlist){
  R path=nil,k=root,seen=0; int64_t sz=0;
  for(;;){
    R hd=HD(k); while(hd-FWD<0x100u){ k=ARG(k,0); hd=HD(k); }
    if(hd<0x100){
      if(wr){ p16(out+sz,CON|hd<<8);} sz+=2;
      if(!wr&&sz>room) return -1;
      R a=AR(hd);
      if(a){ if(a>1){ PROG(k)=1; P16(LINKO(k),path); path=k; } k=ARG(k,0); continue; }
    } else {
      if(wr){ if(hd==VAR){ P16(HEADO(k),VAR|COL); P16(COPYO(k),seen); p16(seenlist+2*seen,k); seen++; } out[sz]=0x0C; p16(out+sz+1,G16(COPYO(k))); }
      sz+=3;
      if(!wr&&sz>room) return -1;
    }
    if(path==nil) break;
    R p=path,i=PROG(p); k=ARG(p,i);
    if(i+1==AR(HD(p))) path=LINK(p); else PROG(p)=i+1;
  }
  if(wr) for(R i=0;i<seen;i++) P16(HEADO(g16(seenlist+2*i)),VAR);
  return sz;
}
static __attribute__((noinline)) int64_t write_result(u8*w,R abase,R nil,R pl,u32 askers,u32 turn,u8*out,int64_t room,u8*L){
  int64_t left=room-5;
#if WRITER==2
  if(left<0) return -1;
  for(u32 t=0;t<=askers;t++){ int64_t z=term_pass(w,abase,nil,G16(t?pl+2+2*t:pl),0,left,0,L); if(z<0) return -1; left-=z; }
#endif
  out[0]=0x20; p32(out+1,turn); int64_t o=5;
  for(u32 t=0;t<=askers;t++) o+=term_pass(w,abase,nil,G16(t?pl+2+2*t:pl),out+o,0,1,L);
#if WRITER==1
  if(o>room) return -1;  // (harness lends more: only to time one pass)
#endif
  return o;
}
#define PL(i) (pool+PLACE*(R)(i))
#define P_VALUE 0
#define P_TOP 2
#define P_NEXT 20
#define P_RESUME 22
#define P_FIRST(d,v) do{ P16((d)+P_VALUE,v); P16((d)+P_TOP,nil); P16((d)+P_RESUME,v); P16(LINKO(v),nil); }while(0)

static __attribute__((noinline)) void newvar(u8*w,R n){ NEWHEAD(n,VAR); }
// cold state, one struct (in the real thing: a head in work memory or a struct of numbers)
typedef struct { R abase,limit,nil,pool,ring; u8*L; u32 poolmax,askers,waiting,idle,fresh_places,head; R cur_,prev; u32 begun,split; R next; u64 cur; R cw; u8*freebits,*NN; } S;
#if POOL==0
#define ROTATE() do{ s->prev=s->cur_; s->cur_=G16(pl+P_NEXT); }while(0)
#define FRONTPL() PL(s->cur_)
#else
#define ROTATE() do{ u32 t_=s->head+s->waiting; if(t_>=s->poolmax) t_-=s->poolmax; P16(s->ring+2*(R)t_,s->cur_); if(++s->head==s->poolmax) s->head=0; }while(0)
#define FRONTPL() (s->cur_=G16(s->ring+2*(R)s->head),PL(s->cur_))
#endif
// NARROW and CHOICE. 0, or answer 2 or 3
static __attribute__((noinline)) u32 do_split(S*s,u8*restrict w,R at,R h,R pl,R sp){
    const R abase=s->abase,limit=s->limit,nil=s->nil,pool=s->pool,pretop=W_PRE+2*312; u8*restrict L=s->L; R next=s->next; const u32 askers=s->askers,waiting=s->waiting,poolmax=s->poolmax;
    u32 idle=s->idle;
#if ALLOC==1
    u64 cur=s->cur; R cw=s->cw; u8*const freebits=s->freebits,*const NN=s->NN;
#endif
    const u32 kk=(pretop-sp)/2;
    const u32 over= waiting-1+kk>poolmax;
    u32 first=0xFFFF,last=0;
    #define VISIT(slot,bit,cnt) do{ R y=G16(slot),yh=HD(y); if(yh-FWD<0x100u){ do{ y=ARG(y,0); yh=HD(y);}while(yh-FWD<0x100u); P16(slot,y); } \
        if(yh<FWD){ P16(HEADO(y),yh|(bit)); P16(COPYO(y),cnt); p16(L+2*cnt,y); cnt++; } }while(0)
#if COPY==1
    R n0=0; const R ath=HD(at);
    P16(HEADO(at),ath|COL);
    VISIT(pl,COL,n0);
    for(u32 j=0;j<askers;j++) VISIT(pl+4+2*j,COL,n0);
    for(R i=0;i<n0;i++){
      R x=g16(L+2*i),sl=ARGS(x);
      for(R e=sl+2*AR(HD(x)&0x3ff);sl!=e;sl+=2) VISIT(sl,COL,n0);
    }
#else
    const R n0=0;
#endif
    for(u32 i=0;i<kk;i++){
      const R ts=pretop-2-2*(R)i;
      R n1=n0;
#if COPY==0
      // each alternative by itself: breadth first over the list, marks taken off after it
      VISIT(ts,COL,n1); { R t_=G16(ts); R ah=HD(at); P16(HEADO(at),ah|COL); P16(COPYO(at),G16(COPYO(t_))); }
      VISIT(pl,COL,n1);
      for(u32 j=0;j<askers;j++) VISIT(pl+4+2*j,COL,n1);
      for(R j=0;j<n1;j++){
        R x=g16(L+2*j),sl=ARGS(x);
        for(R e=sl+2*AR(HD(x)&0x3ff);sl!=e;sl+=2) VISIT(sl,COL,n1);
      }
#else
      VISIT(ts,OWN,n1); // the slot on the stack is updated to the node itself
      for(R j=n0;j<n1;j++){
        R x=g16(L+2*j),sl=ARGS(x);
        for(R e=sl+2*AR(HD(x)&0x3ff);sl!=e;sl+=2) VISIT(sl,OWN,n1);
      }
#endif
      if(UNLIKELY(next+n1>limit)) return 2;
      const R t=G16(ts);
#if INPLACE
      if(i+1==kk){ // the last alternative is the computation itself
        if(UNLIKELY(over)) break;
        s->limit=limit-n1; // counted, no rows taken
        P16(HEADO(at),FWD); P16(ARGS(at),t);
        for(R j=0;j<n1;j++){ R o=HEADO(g16(L+2*j)); P16(o,G16(o)&0x3ff); }
        { R b=h; for(;;){ R l=LINK(b); if(HD(l)-0x100>=0x100u) break; b=l; } P16(pl+P_RESUME,b); } // resume at the stack's bottom
        P16(pl+P_TOP,nil);
        break;
      }
#endif
      P16(COPYO(at),G16(COPYO(t)));
#if ALLOC==0
      const R base=next; next+=n1;
      for(R j=0;j<n1;j++){
        R x=g16(L+2*j),xh=HD(x)&0x3ff; NEWHEAD(base+j,xh);
        R sl=ARGS(x),d=ARGS(base+j);
        for(R e=sl+2*AR(xh);sl!=e;sl+=2,d+=2){ P16(d,base+G16(COPYO(G16(sl)))); __asm__ volatile(""); }
      }
      #define NEWREF(x) (base+G16(COPYO(x)))
#else
      for(R j=0;j<n1;j++) p16(NN+2*j,TAKE());
      for(R j=0;j<n1;j++){
        R x=g16(L+2*j),y=g16(NN+2*j),xh=HD(x)&0x3ff; NEWHEAD(y,xh);
        R sl=ARGS(x),d=ARGS(y);
        for(R e=sl+2*AR(xh);sl!=e;sl+=2,d+=2){ P16(d,g16(NN+2*G16(COPYO(G16(sl))))); __asm__ volatile(""); }
      }
      #define NEWREF(x) g16(NN+2*G16(COPYO(x)))
#endif
      if(LIKELY(!over)){
        u32 pn; if(idle!=0xFFFF){ pn=idle; idle=G16(PL(idle)+P_NEXT); } else pn=s->fresh_places++;
        R d=PL(pn),v=NEWREF(G16(pl));
        P_FIRST(d,v);
        for(u32 j=0;j<askers;j++) P16(d+4+2*j,NEWREF(G16(pl+4+2*j)));
#if POOL==0
        if(first==0xFFFF) first=pn; else P16(PL(last)+P_NEXT,pn);
        last=pn;
#else
        u32 tt=s->head+waiting+i; if(tt>=poolmax) tt-=poolmax; if(tt==s->head) first=pn; else P16(s->ring+2*(R)tt,pn);
#endif
      }
      for(R j=n0;j<n1;j++){ R o=HEADO(g16(L+2*j)); P16(o,G16(o)&0x3ff); }
#if COPY==0
      P16(HEADO(at),HD(at)&0x3ff);
#endif
    }
    if(UNLIKELY(over)) return 3;
    s->split++; s->begun+=kk; s->next=next; s->waiting=waiting+kk-1;
#if ALLOC==1
    s->cur=cur; s->cw=cw;
#endif
#if INPLACE
    s->idle=idle;
#if POOL==0
    { R nx=G16(pl+P_NEXT),c=s->cur_;
      if(kk>1){ // the others go before the parent's place
        P16(PL(last)+P_NEXT,c);
        if(waiting==1){ P16(pl+P_NEXT,first); nx=first; } else P16(PL(s->prev)+P_NEXT,first);
      }
      s->prev=c; s->cur_=nx; }
#else
    { u32 tt=s->head+waiting+kk-1; if(tt>=poolmax) tt-=poolmax; P16(s->ring+2*(R)tt,s->cur_); if(++s->head==poolmax) s->head=0; }
#endif
#else
    P16(PL(s->cur_)+P_NEXT,0); // (next is read before)
#if POOL==0
    #error circle without INPLACE: use fast3
#endif
    P16(pl+P_NEXT,idle); s->idle=s->cur_;
    if(first!=0xFFFF) P16(s->ring+2*(R)s->head,first);
    if(++s->head==poolmax) s->head=0;
#endif
    return 0;
}

static __attribute__((noinline,noclone)) u32 run_machine(u8*restrict w,const u8*restrict code,const u8*restrict q,u32 qlen,u32 limit_,u32 poolmax,u32 budget,u32 room,u8*restrict results,u32*reslen,Counts*C){
  S ss; S*const s=&ss; memset(s,0,sizeof *s);
  const R limit=limit_; R lim=limit; // lim: the limit less the nodes counted but not taking a row
#if LAYOUT==8
  const R abase=ABASE(limit);
#else
  const R abase=0;
#endif
  u32 pos_=NODES_END(limit);
  const R pool=pos_; pos_+=PLACE*(poolmax+1);
  u8*const L=w+pos_; pos_+=2*limit;   // list of nodes by rank
  s->ring=pos_; pos_+=2*(poolmax+1);
  const R nil=limit; // a row of its own that reads as a constant
  s->abase=abase; s->limit=limit; s->nil=nil; s->pool=pool; s->L=L; s->poolmax=poolmax; s->idle=0xFFFF; s->fresh_places=1; s->begun=1;
  R next=0;
#if ALLOC==1
  u8*const freebits=w+((pos_+7)&~7u); for(u32 i=0;i<=limit/64;i++) p64(freebits+8*i,~0ull);
  u64 cur=g64(freebits); R cw=0; s->freebits=freebits; s->NN=freebits+2064;
#endif
  NEWHEAD(nil,0);
  const R pretop=W_PRE+2*312; // pre-term stack grows downward: top at the lowest address, so arguments lie in order
  const R FRV=W_PRE;          // STOREVAR's variables
  R sp=pretop;
  const u32 askers=q[1]; s->askers=askers;
  u32 out=0,left=budget,values=0,failed=0,misfits=0; R made=0;
  { // the question
    u32 need=askers; for(u32 i=2;i<qlen;i+=2) need+= q[i]<=CALL;
    if(need>limit){ memset(C,0,sizeof *C); *reslen=0; return 2; }
    R p=PL(0);
    for(u32 i=0;i<askers;i++){ R n=TAKE(); NEWHEAD(n,VAR); P16(p+4+2*i,n); }
    for(u32 i=qlen;i>2;){
      i-=2; u32 r=q[i],x=q[i+1];
      if(r==FRESH){ sp-=2; P16(sp,G16(p+4+2*x)); continue; }
      R n=TAKE(),hd=(r-CON)<<8|x; NEWHEAD(n,hd); R a=AR(hd);
      for(u32 j=0;j<a;j++) P16(ARGS(n)+2*j,G16(sp+2*j));
      sp+=2*a; sp-=2; P16(sp,n);
    }
    R v=G16(sp); P_FIRST(p,v); P16(p+P_NEXT,0); P16(s->ring,0);
  }
  made=next; s->waiting=1;
  u32 answer;
  R pl,h,hd,k,path,reg,pc,ha,nar=0,tos=0;
turn:
  if(UNLIKELY(left==0)){ answer=1; goto end; }
  pl=FRONTPL();
  h=G16(pl+P_TOP);
  if(UNLIKELY(h==nil)){
    k=G16(pl+P_RESUME); path=LINK(k); hd=HD(k); if(hd>=FWD) CHASE(k,hd);
    goto search;
  }
  hd=HD(h); // the top was replaced in the computation's last turn: a forward, or the new node itself
  if(hd<FWD){ if(hd>=0x100) goto call; k=h; goto popped; }
  k=ARG(h,0);
again_solo:;
  {
    hd=HD(k); if(UNLIKELY(hd>=FWD)){ CHASE(k,hd); P16(ARGS(h),k); }
    if(hd-0x100<0x100u){ P16(LINKO(k),LINK(h)); h=k; goto call; }
  }
popped: {
    R below=LINK(h),bh=HD(below);
    if(LIKELY(bh>=0x100)){ h=below; hd=bh; goto call; }
    path=below;
  }
search:
  for(;;){
    R slot;
    if(hd<0x100){
      R a=AR(hd);
      if(a&&!PROG(k)){
        PROG(k)=1;
        if(a>1){ P16(LINKO(k),path); path=k; }
        slot=ARGS(k);
        goto look;
      }
    } else if(hd<VAR){ P16(LINKO(k),path); h=k; goto call; }
    if(path==nil) goto value;
    { R i=PROG(path); slot=ARGS(path)+2*i; i++; PROG(path)=i; if(i==AR(HD(path))) path=LINK(path); }
  look:
    k=G16(slot); hd=HD(k); if(hd>=FWD){ CHASE(k,hd); P16(slot,k); }
  }
call:
  sp=pretop+2; // tos holds the top; the first push stores a dummy just above the stack
again:
  ha=ARGS(h)-2;
  pc=g32(w+W_START-1024+4*hd);
  for(;;){
    u32 op=code[pc];
    if(LIKELY(op==0x30)){ // LOAD, then PUSH or BRANCH
      R slot=ha+2*(R)code[pc+2]; reg=G16(slot);
      u32 n=code[pc+1];
      if(n!=1){
        slot=ARGS(reg)-2+2*(R)code[pc+3]; reg=G16(slot);
        for(R i=4;UNLIKELY(i<n+2);i++){ slot=ARGS(reg)-2+2*(R)code[pc+i]; reg=G16(slot); }
      }
      if(code[pc+10]==0x33){ sp-=2; P16(sp,tos); tos=reg; pc+=11; continue; } // a pushed node needn't be followed now
      hd=HD(reg); if(hd>=FWD){ CHASE(reg,hd); UPD(slot,reg); }
      if(hd<0x100){
        R v=G16(W_CON+2*hd);
        if(UNLIKELY((v&255)!=code[pc+11])) goto misfit;
        pc=g32(code+pc+13+(v>>8));
        continue;
      }
      if(LIKELY(hd<VAR)){ P16(LINKO(reg),h); h=reg; goto again; }
      nar=reg; pc=g32(code+pc+13);
      continue;
    }
    if(LIKELY(op==0x38)){
      if(UNLIKELY(FULL())) goto full;
      R x=__builtin_bswap16(g16(code+pc+1)),a=AR(x);
#if ROOT
      if(code[pc+3]==0x34){ // the RIGHT's own root, then POP REPLACE: the call's row becomes the new node (counted, no row taken)
        lim--; P16(HEADO(h),x);
        if(LIKELY(a)){
          P16(ha+2,tos);
          if(a>1){ P16(ha+4,G16(sp)); for(R j=2;j<a;j++){ P16(ha+2+2*j,G16(sp+2*j-2)); __asm__ volatile(""); } }
        }
        hd=x;
        P16(pl+P_TOP,h); left--; made=next+(limit-lim);
        if(s->waiting==1){ if(UNLIKELY(left==0)){ answer=1; goto end; } if(hd>=0x100) goto call; k=h; goto popped; }
        ROTATE();
        goto turn;
      }
#endif
      R n=TAKE();
      NEWHEAD(n,x);
      pc+=3;
      if(LIKELY(a)){
        R ap=ARGS(n);
        P16(ap,tos);
        if(a>1){ P16(ap+2,G16(sp)); for(R j=2;j<a;j++){ P16(ap+2*j,G16(sp+2*j-2)); __asm__ volatile(""); } }
        sp+=2*a-2;
      } else { sp-=2; P16(sp,tos); }
      tos=n;
      continue;
    }
    if(op==0x34){
    replace:
      P16(HEADO(h),FWD); P16(ha+2,tos); P16(pl+P_TOP,h);
      made=next+(limit-lim); left--;
#if SOLO
      if(s->waiting==1){ if(UNLIKELY(left==0)){ answer=1; goto end; } k=tos; goto again_solo; }
#endif
      ROTATE();
      goto turn;
    }
    if(op==0x37){ sp-=2; P16(sp,tos); tos=G16(FRV+2*(R)code[pc+1]); pc+=2; continue; }
    if(op==0x35||op==0x36){ if(UNLIKELY(FULL())) goto full; R n=TAKE(); newvar(w,n); if(op==0x35){ sp-=2; P16(sp,tos); tos=n; pc++; } else { P16(FRV+2*(R)code[pc+1],n); pc+=2; } continue; }
    if(op==0x3C) goto failed;
    reg= op==0x3B? h:nar;
    sp-=2; P16(sp,tos);
    break;
  }
  // split
  s->next=next; s->limit=lim;
#if ALLOC==1
  s->cur=cur; s->cw=cw;
#endif
  answer=do_split(s,w,reg,h,pl,sp);
  if(UNLIKELY(answer)) goto end;
  next=s->next; lim=s->limit; made=next+(limit-lim); left--;
#if ALLOC==1
  cur=s->cur; cw=s->cw;
#endif
  goto turn;
value: {
    int64_t z=write_result(w,abase,nil,pl,askers,budget-left+1,results+out,(int64_t)room-out,L);
    if(z<0){ answer=4; goto end; }
    out+=z; values++; goto ended;
  }
failed: failed++; goto ended;
misfit: misfits++;
ended:
  made=next+(limit-lim); left--;
#if POOL==0
  { R nx2=G16(pl+P_NEXT); P16(PL(s->prev)+P_NEXT,nx2); P16(pl+P_NEXT,s->idle); s->idle=s->cur_; s->cur_=nx2; }
#else
  P16(pl+P_NEXT,s->idle); s->idle=s->cur_; if(++s->head==poolmax) s->head=0;
#endif
  if(--s->waiting==0){ answer=0; goto end; }
  goto turn;
full: answer=2;
end:
  C->turns=budget-left; C->nodes=made; C->begun=s->begun; C->split=s->split; C->values=values; C->failed=failed; C->misfits=misfits;
  *reslen=out; return answer;
}
// ---------------------------------------------------------------- engine
typedef struct { u32 answer; u32 place; Counts c; u32 reslen; } Out;
static u64 now(void){ struct timespec t; clock_gettime(CLOCK_MONOTONIC,&t); return t.tv_sec*1000000000ull+t.tv_nsec; }
static Out run(const u32*lim,const u8*book,const u8*q,u8*work,u8*code,u8*results,u64*ph){
  Out o; memset(&o,0,sizeof o);
  if(lim[0]<1||lim[0]>16384||lim[1]<1||lim[1]>1024||lim[2]>1000000||lim[3]>65536||lim[4]>262144){ o.answer=10; return o; }
  if(ph) ph[0]=now();
  Shape s; int64_t e=check_book(book,lim[5],&s);
  if(e>=0){ o.answer=11; o.place=e; return o; }
  e=check_question(q,lim[6],&s);
  if(e>=0){ o.answer=12; o.place=e; return o; }
  if(s.code_len>lim[4]){ o.answer=13; return o; }
  if(ph) ph[1]=now();
  memcpy(work+W_ARITY,s.arity,s.ncons); memcpy(work+W_ARITY+256,s.arity+256,s.nfuncs); memset(work+W_ARITY+512,0,1); memcpy(work+W_TYPE,s.type,2*s.ntypes);
  for(u32 t=0;t<s.ntypes;t++) for(u32 f=s.type[t]&255,i=0;i<(u32)(s.type[t]>>8);i++) p16(work+W_CON+2*(f+i),t|(5*(i+1))<<8);
  compile(book,lim[5],&s,work,code);
  if(ph) ph[2]=now();
  o.answer=run_machine(work,code,q,lim[6],lim[0],lim[1],lim[2],lim[3],results,&o.reslen,&o.c);
  if(ph) ph[3]=now();
  return o;
}
static int cmp(const void*a,const void*b){ u64 x=*(u64*)a,y=*(u64*)b; return x<y?-1:x>y; }
int main(int argc,char**argv){
  // the caller's memory
  static u8 work[8192+1025*40+16384*40+(1<<16)] __attribute__((aligned(64))), code[262144+16], results[65536+(1<<20)], book[1<<17], q[1<<17];
  if(argc>1&&!strcmp(argv[1],"batch")){
    static char ob[1<<16]; setvbuf(stdout,ob,_IOFBF,sizeof ob);
    u32 h[7];
    while(fread(h,28,1,stdin)==1){
      if(h[5]>sizeof book||h[6]>sizeof q) return 2;
      if(fread(book,1,h[5],stdin)!=h[5]||fread(q,1,h[6],stdin)!=h[6]) return 1;
      Out o=run(h,book,q,work,code,results,0);
      printf("%u %u %u %u %u %u %u %u %u ",o.answer,o.place,o.c.turns,o.c.nodes,o.c.begun,o.c.split,o.c.values,o.c.failed,o.c.misfits);
      if(!o.reslen) putchar('-');
      for(u32 i=0;i<o.reslen;i++){ static const char d[]="0123456789abcdef"; putchar_unlocked(d[results[i]>>4]); putchar_unlocked(d[results[i]&15]); }
      putchar('\n');
    }
    return 0;
  }
  if(argc>2&&!strcmp(argv[1],"bench")){ // case files follow; medians of 101 samples of REPS runs
    int reps=atoi(argv[2]);
    for(int f=3;f<argc;f++){
      FILE*fp=fopen(argv[f],"rb"); u32 h[7]; if(!fp||fread(h,28,1,fp)!=1) return 1;
      if(fread(book,1,h[5],fp)!=h[5]||fread(q,1,h[6],fp)!=h[6]) return 1; fclose(fp);
      Out o=run(h,book,q,work,code,results,0);
      enum{S=51}; u64 tot[S],c1[S],c2[S],c3[S];
      for(int i=0;i<S;i++){ u64 a=now(); for(int r=0;r<reps;r++) o=run(h,book,q,work,code,results,0); tot[i]=now()-a; }
      Shape s;
      for(int i=0;i<S;i++){ u64 a=now(); for(int r=0;r<reps;r++){ check_book(book,h[5],&s); check_question(q,h[6],&s); } c1[i]=now()-a; }
      for(int i=0;i<S;i++){ u64 a=now(); for(int r=0;r<reps;r++) compile(book,h[5],&s,work,code); c2[i]=now()-a; }
      for(int i=0;i<S;i++){ u64 a=now(); for(int r=0;r<reps;r++) o.answer=run_machine(work,code,q,h[6],h[0],h[1],h[2],h[3],results,&o.reslen,&o.c); c3[i]=now()-a; }
      qsort(tot,S,8,cmp); qsort(c1,S,8,cmp); qsort(c2,S,8,cmp); qsort(c3,S,8,cmp);
      const char*n=strrchr(argv[f],'/'); n=n?n+1:argv[f];
      printf("%-15s total %8.2f us  check %6.2f compile %6.2f run %8.2f  %6.1f ns/turn %5.1f ns/node (%u turns %u nodes) best total %.2f\n",n,tot[S/2]/1e3/reps,c1[S/2]/1e3/reps,c2[S/2]/1e3/reps,c3[S/2]/1e3/reps,(double)c3[S/2]/reps/(o.c.turns?o.c.turns:1),(double)c3[S/2]/reps/(o.c.nodes?o.c.nodes:1),o.c.turns,o.c.nodes,tot[0]/1e3/reps);
    }
    return 0;
  }
  return 2;
}
