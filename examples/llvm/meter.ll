; ModuleID = 'meter.c'
source_filename = "meter.c"
target datalayout = "e-m:e-p270:32:32-p271:32:32-p272:64:64-i64:64-f80:128-n8:16:32:64-S128"
target triple = "x86_64-unknown-linux-gnu"

%struct.ring = type { [8 x %struct.reading], i32, i32 }
%struct.reading = type { i32, i32, double, i32, i32 }

@rings = internal global [4 x %struct.ring] zeroinitializer, align 16
@faults = dso_local local_unnamed_addr global i32 0, align 4
@.str = private unnamed_addr constant [10 x i8] c"full: %u\0A\00", align 1
@.str.2 = private unnamed_addr constant [18 x i8] c"%u at %u: %f, %s\0A\00", align 1
@.str.3 = private unnamed_addr constant [10 x i8] c"mean: %f\0A\00", align 1
@reltable.name_of = internal unnamed_addr constant [4 x i32] [i32 trunc (i64 sub (i64 ptrtoint ([6 x i8]* @.str.5 to i64), i64 ptrtoint ([4 x i32]* @reltable.name_of to i64)) to i32), i32 trunc (i64 sub (i64 ptrtoint ([8 x i8]* @.str.6 to i64), i64 ptrtoint ([4 x i32]* @reltable.name_of to i64)) to i32), i32 trunc (i64 sub (i64 ptrtoint ([5 x i8]* @.str.7 to i64), i64 ptrtoint ([4 x i32]* @reltable.name_of to i64)) to i32), i32 trunc (i64 sub (i64 ptrtoint ([8 x i8]* @.str.8 to i64), i64 ptrtoint ([4 x i32]* @reltable.name_of to i64)) to i32)], align 4
@.str.4 = private unnamed_addr constant [8 x i8] c"unknown\00", align 1
@.str.5 = private unnamed_addr constant [6 x i8] c"empty\00", align 1
@.str.6 = private unnamed_addr constant [8 x i8] c"waiting\00", align 1
@.str.7 = private unnamed_addr constant [5 x i8] c"kept\00", align 1
@.str.8 = private unnamed_addr constant [8 x i8] c"damaged\00", align 1

; Function Attrs: nofree noinline nosync nounwind uwtable
define dso_local i32 @put(i32 noundef %meter, i32 noundef %at, double noundef %value) local_unnamed_addr #0 !dbg !9 {
entry:
  %and = and i32 %meter, 3, !dbg !12
  %idxprom = zext i32 %and to i64, !dbg !13
  %count = getelementptr inbounds [4 x %struct.ring], [4 x %struct.ring]* @rings, i64 0, i64 %idxprom, i32 2, !dbg !14
  %0 = load i32, i32* %count, align 4, !dbg !14, !tbaa !15
  %cmp = icmp eq i32 %0, 8, !dbg !20
  br i1 %cmp, label %if.then, label %if.end, !dbg !21

if.then:                                          ; preds = %entry
  %1 = load i32, i32* @faults, align 4, !dbg !22, !tbaa !23
  br label %cleanup, !dbg !24

if.end:                                           ; preds = %entry
  %first = getelementptr inbounds [4 x %struct.ring], [4 x %struct.ring]* @rings, i64 0, i64 %idxprom, i32 1, !dbg !25
  %2 = load i32, i32* %first, align 8, !dbg !25, !tbaa !26
  %add = add i32 %2, %0, !dbg !27
  %and2 = and i32 %add, 7, !dbg !28
  %idxprom3 = zext i32 %and2 to i64, !dbg !29
  %arrayidx4 = getelementptr inbounds [4 x %struct.ring], [4 x %struct.ring]* @rings, i64 0, i64 %idxprom, i32 0, i64 %idxprom3, !dbg !29
  %at5 = getelementptr inbounds %struct.reading, %struct.reading* %arrayidx4, i64 0, i32 0, !dbg !30
  store i32 %at, i32* %at5, align 8, !dbg !31, !tbaa !32
  %meter6 = getelementptr inbounds [4 x %struct.ring], [4 x %struct.ring]* @rings, i64 0, i64 %idxprom, i32 0, i64 %idxprom3, i32 1, !dbg !35
  store i32 %meter, i32* %meter6, align 4, !dbg !36, !tbaa !37
  %value7 = getelementptr inbounds [4 x %struct.ring], [4 x %struct.ring]* @rings, i64 0, i64 %idxprom, i32 0, i64 %idxprom3, i32 2, !dbg !38
  store double %value, double* %value7, align 8, !dbg !39, !tbaa !40
  %state = getelementptr inbounds [4 x %struct.ring], [4 x %struct.ring]* @rings, i64 0, i64 %idxprom, i32 0, i64 %idxprom3, i32 3, !dbg !41
  store i32 1, i32* %state, align 8, !dbg !42, !tbaa !43
  %call = call fastcc i32 @checksum_of(%struct.reading* noundef nonnull %arrayidx4), !dbg !44
  %checksum = getelementptr inbounds [4 x %struct.ring], [4 x %struct.ring]* @rings, i64 0, i64 %idxprom, i32 0, i64 %idxprom3, i32 4, !dbg !45
  store i32 %call, i32* %checksum, align 4, !dbg !46, !tbaa !47
  br label %cleanup

cleanup:                                          ; preds = %if.end, %if.then
  %.sink = phi i32 [ %0, %if.end ], [ %1, %if.then ]
  %count.sink = phi i32* [ %count, %if.end ], [ @faults, %if.then ]
  %retval.0 = phi i32 [ 0, %if.end ], [ -1, %if.then ], !dbg !48
  %inc9 = add i32 %.sink, 1, !dbg !48
  store i32 %inc9, i32* %count.sink, align 4, !dbg !48, !tbaa !23
  ret i32 %retval.0, !dbg !49
}

; Function Attrs: argmemonly mustprogress nofree nosync nounwind willreturn
declare void @llvm.lifetime.start.p0i8(i64 immarg, i8* nocapture) #1

; Function Attrs: nofree noinline nosync nounwind readonly uwtable
define internal fastcc i32 @checksum_of(%struct.reading* nocapture noundef readonly %row) unnamed_addr #2 !dbg !50 {
entry:
  %0 = getelementptr %struct.reading, %struct.reading* %row, i64 0, i32 0, !dbg !51
  br label %for.body, !dbg !52

for.cond.cleanup:                                 ; preds = %for.body
  %neg = xor i32 %call, -1, !dbg !53
  ret i32 %neg, !dbg !54

for.body:                                         ; preds = %entry, %for.body
  %indvars.iv = phi i64 [ 0, %entry ], [ %indvars.iv.next, %for.body ]
  %sum.07 = phi i32 [ -1, %entry ], [ %call, %for.body ]
  %arrayidx = getelementptr inbounds i32, i32* %0, i64 %indvars.iv, !dbg !55
  %1 = load i32, i32* %arrayidx, align 4, !dbg !55, !tbaa !23
  %call = call fastcc i32 @step(i32 noundef %sum.07, i32 noundef %1), !dbg !56
  %indvars.iv.next = add nuw nsw i64 %indvars.iv, 1, !dbg !57
  %exitcond.not = icmp eq i64 %indvars.iv.next, 5, !dbg !58
  br i1 %exitcond.not, label %for.cond.cleanup, label %for.body, !dbg !52, !llvm.loop !59
}

; Function Attrs: argmemonly mustprogress nofree nosync nounwind willreturn
declare void @llvm.lifetime.end.p0i8(i64 immarg, i8* nocapture) #1

; Function Attrs: nofree noinline nosync nounwind uwtable
define dso_local i32 @take(i32 noundef %meter, %struct.reading* nocapture noundef %to) local_unnamed_addr #0 !dbg !63 {
entry:
  %and = and i32 %meter, 3, !dbg !64
  %idxprom = zext i32 %and to i64, !dbg !65
  %count = getelementptr inbounds [4 x %struct.ring], [4 x %struct.ring]* @rings, i64 0, i64 %idxprom, i32 2, !dbg !66
  %0 = load i32, i32* %count, align 4, !dbg !66, !tbaa !15
  %cmp = icmp eq i32 %0, 0, !dbg !67
  br i1 %cmp, label %cleanup, label %if.end, !dbg !68

if.end:                                           ; preds = %entry
  %first = getelementptr inbounds [4 x %struct.ring], [4 x %struct.ring]* @rings, i64 0, i64 %idxprom, i32 1, !dbg !69
  %1 = load i32, i32* %first, align 8, !dbg !69, !tbaa !26
  %idxprom1 = zext i32 %1 to i64, !dbg !70
  %arrayidx2 = getelementptr inbounds [4 x %struct.ring], [4 x %struct.ring]* @rings, i64 0, i64 %idxprom, i32 0, i64 %idxprom1, !dbg !70
  %2 = bitcast %struct.reading* %to to i8*, !dbg !70
  %3 = bitcast %struct.reading* %arrayidx2 to i8*, !dbg !70
  call void @llvm.memcpy.p0i8.p0i8.i64(i8* noundef nonnull align 8 dereferenceable(24) %2, i8* noundef nonnull align 8 dereferenceable(24) %3, i64 24, i1 false), !dbg !70, !tbaa.struct !71
  %4 = load i32, i32* %first, align 8, !dbg !74, !tbaa !26
  %add = add i32 %4, 1, !dbg !75
  %and4 = and i32 %add, 7, !dbg !76
  store i32 %and4, i32* %first, align 8, !dbg !77, !tbaa !26
  %5 = load i32, i32* %count, align 4, !dbg !78, !tbaa !15
  %dec = add i32 %5, -1, !dbg !78
  store i32 %dec, i32* %count, align 4, !dbg !78, !tbaa !15
  %checksum = getelementptr inbounds %struct.reading, %struct.reading* %to, i64 0, i32 4, !dbg !79
  %6 = load i32, i32* %checksum, align 4, !dbg !79, !tbaa !47
  %call = call fastcc i32 @checksum_of(%struct.reading* noundef %to), !dbg !80
  %cmp7.not = icmp eq i32 %6, %call, !dbg !81
  %state10 = getelementptr inbounds %struct.reading, %struct.reading* %to, i64 0, i32 3, !dbg !82
  br i1 %cmp7.not, label %if.end9, label %if.then8, !dbg !83

if.then8:                                         ; preds = %if.end
  store i32 3, i32* %state10, align 8, !dbg !84, !tbaa !43
  %7 = load i32, i32* @faults, align 4, !dbg !85, !tbaa !23
  %inc = add i32 %7, 1, !dbg !85
  store i32 %inc, i32* @faults, align 4, !dbg !85, !tbaa !23
  br label %cleanup, !dbg !86

if.end9:                                          ; preds = %if.end
  store i32 2, i32* %state10, align 8, !dbg !87, !tbaa !43
  br label %cleanup, !dbg !88

cleanup:                                          ; preds = %entry, %if.end9, %if.then8
  %retval.0 = phi i32 [ 1, %if.then8 ], [ 0, %if.end9 ], [ -1, %entry ], !dbg !82
  ret i32 %retval.0, !dbg !89
}

; Function Attrs: argmemonly mustprogress nofree nounwind willreturn
declare void @llvm.memcpy.p0i8.p0i8.i64(i8* noalias nocapture writeonly, i8* noalias nocapture readonly, i64, i1 immarg) #3

; Function Attrs: nofree noinline norecurse nosync nounwind readonly uwtable
define dso_local double @mean_of(i32 noundef %meter) local_unnamed_addr #4 !dbg !90 {
entry:
  %and = and i32 %meter, 3, !dbg !91
  %idxprom = zext i32 %and to i64, !dbg !92
  %count = getelementptr inbounds [4 x %struct.ring], [4 x %struct.ring]* @rings, i64 0, i64 %idxprom, i32 2
  %0 = load i32, i32* %count, align 4, !tbaa !15
  %cmp24.not = icmp eq i32 %0, 0, !dbg !93
  br i1 %cmp24.not, label %for.cond.cleanup, label %for.body.lr.ph, !dbg !94

for.body.lr.ph:                                   ; preds = %entry
  %first = getelementptr inbounds [4 x %struct.ring], [4 x %struct.ring]* @rings, i64 0, i64 %idxprom, i32 1
  %1 = load i32, i32* %first, align 8, !tbaa !26
  br label %for.body, !dbg !94

for.cond.cleanup:                                 ; preds = %cleanup, %entry
  %used.0.lcssa = phi i32 [ 0, %entry ], [ %used.1, %cleanup ], !dbg !95
  %sum.0.lcssa = phi double [ 0.000000e+00, %entry ], [ %sum.1, %cleanup ], !dbg !96
  %tobool.not = icmp eq i32 %used.0.lcssa, 0, !dbg !97
  br i1 %tobool.not, label %cond.end, label %cond.true, !dbg !97

for.body:                                         ; preds = %for.body.lr.ph, %cleanup
  %sum.027 = phi double [ 0.000000e+00, %for.body.lr.ph ], [ %sum.1, %cleanup ]
  %i.026 = phi i32 [ 0, %for.body.lr.ph ], [ %inc6, %cleanup ]
  %used.025 = phi i32 [ 0, %for.body.lr.ph ], [ %used.1, %cleanup ]
  %add = add i32 %1, %i.026, !dbg !98
  %and1 = and i32 %add, 7, !dbg !99
  %idxprom2 = zext i32 %and1 to i64, !dbg !100
  %state = getelementptr inbounds [4 x %struct.ring], [4 x %struct.ring]* @rings, i64 0, i64 %idxprom, i32 0, i64 %idxprom2, i32 3, !dbg !101
  %2 = load i32, i32* %state, align 8, !dbg !101, !tbaa !43
  %cmp4 = icmp eq i32 %2, 3, !dbg !102
  br i1 %cmp4, label %cleanup, label %if.end, !dbg !103

if.end:                                           ; preds = %for.body
  %value = getelementptr inbounds [4 x %struct.ring], [4 x %struct.ring]* @rings, i64 0, i64 %idxprom, i32 0, i64 %idxprom2, i32 2, !dbg !104
  %3 = load double, double* %value, align 8, !dbg !104, !tbaa !40
  %add5 = fadd double %sum.027, %3, !dbg !105
  %inc = add i32 %used.025, 1, !dbg !106
  br label %cleanup, !dbg !107

cleanup:                                          ; preds = %for.body, %if.end
  %used.1 = phi i32 [ %inc, %if.end ], [ %used.025, %for.body ], !dbg !108
  %sum.1 = phi double [ %add5, %if.end ], [ %sum.027, %for.body ], !dbg !108
  %inc6 = add nuw i32 %i.026, 1, !dbg !109
  %exitcond.not = icmp eq i32 %inc6, %0, !dbg !93
  br i1 %exitcond.not, label %for.cond.cleanup, label %for.body, !dbg !94, !llvm.loop !110

cond.true:                                        ; preds = %for.cond.cleanup
  %conv = uitofp i32 %used.0.lcssa to double, !dbg !111
  %div = fdiv double %sum.0.lcssa, %conv, !dbg !112
  br label %cond.end, !dbg !97

cond.end:                                         ; preds = %for.cond.cleanup, %cond.true
  %cond = phi double [ %div, %cond.true ], [ 0.000000e+00, %for.cond.cleanup ], !dbg !97
  ret double %cond, !dbg !113
}

; Function Attrs: nofree noinline nounwind uwtable
define dso_local i32 @main() local_unnamed_addr #5 !dbg !114 {
entry:
  %row = alloca %struct.reading, align 8
  %0 = bitcast %struct.reading* %row to i8*, !dbg !115
  call void @llvm.lifetime.start.p0i8(i64 24, i8* nonnull %0) #12, !dbg !115
  br label %for.body, !dbg !116

for.cond.cleanup:                                 ; preds = %for.inc
  call fastcc void @print_all(), !dbg !117
  %call317 = call i32 @take(i32 noundef 1, %struct.reading* noundef nonnull %row), !dbg !118
  %cmp418 = icmp eq i32 %call317, 0, !dbg !119
  br i1 %cmp418, label %while.body.lr.ph, label %while.end, !dbg !120

while.body.lr.ph:                                 ; preds = %for.cond.cleanup
  %state = getelementptr inbounds %struct.reading, %struct.reading* %row, i64 0, i32 3
  br label %while.body, !dbg !120

for.body:                                         ; preds = %entry, %for.inc
  %i.016 = phi i32 [ 0, %entry ], [ %inc, %for.inc ]
  %rem = urem i32 %i.016, 5, !dbg !121
  %add = add nuw nsw i32 %i.016, 100, !dbg !122
  %conv = uitofp i32 %i.016 to double, !dbg !123
  %mul = fmul double %conv, 5.000000e-01, !dbg !124
  %call = call i32 @put(i32 noundef %rem, i32 noundef %add, double noundef %mul), !dbg !125
  %tobool.not = icmp eq i32 %call, 0, !dbg !125
  br i1 %tobool.not, label %for.inc, label %if.then, !dbg !125

if.then:                                          ; preds = %for.body
  %call2 = call i32 (i8*, ...) @printf(i8* noundef nonnull dereferenceable(1) getelementptr inbounds ([10 x i8], [10 x i8]* @.str, i64 0, i64 0), i32 noundef %rem), !dbg !126
  br label %for.inc, !dbg !126

for.inc:                                          ; preds = %for.body, %if.then
  %inc = add nuw nsw i32 %i.016, 1, !dbg !127
  %exitcond.not = icmp eq i32 %inc, 20, !dbg !128
  br i1 %exitcond.not, label %for.cond.cleanup, label %for.body, !dbg !116, !llvm.loop !129

while.body:                                       ; preds = %while.body.lr.ph, %while.body
  %1 = load i32, i32* %state, align 8, !dbg !131, !tbaa !43
  %call6 = call fastcc i8* @name_of(i32 noundef %1), !dbg !132
  %puts = call i32 @puts(i8* nonnull dereferenceable(1) %call6), !dbg !133
  %call3 = call i32 @take(i32 noundef 1, %struct.reading* noundef nonnull %row), !dbg !118
  %cmp4 = icmp eq i32 %call3, 0, !dbg !119
  br i1 %cmp4, label %while.body, label %while.end, !dbg !120, !llvm.loop !134

while.end:                                        ; preds = %while.body, %for.cond.cleanup
  %2 = load i32, i32* @faults, align 4, !dbg !136, !tbaa !23
  %cmp8 = icmp ne i32 %2, 0, !dbg !137
  %conv9 = zext i1 %cmp8 to i32, !dbg !137
  call void @llvm.lifetime.end.p0i8(i64 24, i8* nonnull %0) #12, !dbg !138
  ret i32 %conv9, !dbg !139
}

; Function Attrs: nofree nounwind
declare noundef i32 @printf(i8* nocapture noundef readonly, ...) local_unnamed_addr #6

; Function Attrs: nofree noinline nounwind uwtable
define internal fastcc void @print_all() unnamed_addr #5 !dbg !140 {
entry:
  br label %for.body, !dbg !141

for.cond.cleanup:                                 ; preds = %for.cond.cleanup3
  ret void, !dbg !142

for.body:                                         ; preds = %entry, %for.cond.cleanup3
  %indvars.iv = phi i64 [ 0, %entry ], [ %indvars.iv.next, %for.cond.cleanup3 ]
  %count = getelementptr inbounds [4 x %struct.ring], [4 x %struct.ring]* @rings, i64 0, i64 %indvars.iv, i32 2
  %0 = load i32, i32* %count, align 4, !dbg !143, !tbaa !15
  %cmp227.not = icmp eq i32 %0, 0, !dbg !144
  br i1 %cmp227.not, label %for.cond.cleanup3, label %for.body4.lr.ph, !dbg !145

for.body4.lr.ph:                                  ; preds = %for.body
  %first = getelementptr inbounds [4 x %struct.ring], [4 x %struct.ring]* @rings, i64 0, i64 %indvars.iv, i32 1
  br label %for.body4, !dbg !145

for.cond.cleanup3:                                ; preds = %for.body4, %for.body
  %1 = trunc i64 %indvars.iv to i32, !dbg !146
  %call8 = call double @mean_of(i32 noundef %1), !dbg !146
  %call9 = call i32 (i8*, ...) @printf(i8* noundef nonnull dereferenceable(1) getelementptr inbounds ([10 x i8], [10 x i8]* @.str.3, i64 0, i64 0), double noundef %call8), !dbg !147
  %indvars.iv.next = add nuw nsw i64 %indvars.iv, 1, !dbg !148
  %exitcond.not = icmp eq i64 %indvars.iv.next, 4, !dbg !149
  br i1 %exitcond.not, label %for.cond.cleanup, label %for.body, !dbg !141, !llvm.loop !150

for.body4:                                        ; preds = %for.body4.lr.ph, %for.body4
  %i.028 = phi i32 [ 0, %for.body4.lr.ph ], [ %inc, %for.body4 ]
  %2 = load i32, i32* %first, align 8, !dbg !152, !tbaa !26
  %add = add i32 %2, %i.028, !dbg !153
  %and = and i32 %add, 7, !dbg !154
  %idxprom5 = zext i32 %and to i64, !dbg !155
  %meter = getelementptr inbounds [4 x %struct.ring], [4 x %struct.ring]* @rings, i64 0, i64 %indvars.iv, i32 0, i64 %idxprom5, i32 1, !dbg !156
  %3 = load i32, i32* %meter, align 4, !dbg !156, !tbaa !37
  %at = getelementptr inbounds [4 x %struct.ring], [4 x %struct.ring]* @rings, i64 0, i64 %indvars.iv, i32 0, i64 %idxprom5, i32 0, !dbg !157
  %4 = load i32, i32* %at, align 8, !dbg !157, !tbaa !32
  %value = getelementptr inbounds [4 x %struct.ring], [4 x %struct.ring]* @rings, i64 0, i64 %indvars.iv, i32 0, i64 %idxprom5, i32 2, !dbg !158
  %5 = load double, double* %value, align 8, !dbg !158, !tbaa !40
  %state = getelementptr inbounds [4 x %struct.ring], [4 x %struct.ring]* @rings, i64 0, i64 %indvars.iv, i32 0, i64 %idxprom5, i32 3, !dbg !159
  %6 = load i32, i32* %state, align 8, !dbg !159, !tbaa !43
  %call = call fastcc i8* @name_of(i32 noundef %6), !dbg !160
  %call7 = call i32 (i8*, ...) @printf(i8* noundef nonnull dereferenceable(1) getelementptr inbounds ([18 x i8], [18 x i8]* @.str.2, i64 0, i64 0), i32 noundef %3, i32 noundef %4, double noundef %5, i8* noundef %call), !dbg !161
  %inc = add nuw i32 %i.028, 1, !dbg !162
  %7 = load i32, i32* %count, align 4, !dbg !143, !tbaa !15
  %cmp2 = icmp ult i32 %inc, %7, !dbg !144
  br i1 %cmp2, label %for.body4, label %for.cond.cleanup3, !dbg !145, !llvm.loop !163
}

; Function Attrs: mustprogress nofree noinline norecurse nosync nounwind readnone uwtable willreturn
define internal fastcc i8* @name_of(i32 noundef %state) unnamed_addr #7 !dbg !165 {
entry:
  %switch = icmp ult i32 %state, 4, !dbg !166
  br i1 %switch, label %sw.bb, label %return, !dbg !166

sw.bb:                                            ; preds = %entry
  %idxprom = zext i32 %state to i64, !dbg !167
  %reltable.shift = shl i64 %idxprom, 2, !dbg !167
  %reltable.intrinsic = call i8* @llvm.load.relative.i64(i8* bitcast ([4 x i32]* @reltable.name_of to i8*), i64 %reltable.shift), !dbg !167
  br label %return, !dbg !168

return:                                           ; preds = %entry, %sw.bb
  %retval.0 = phi i8* [ %reltable.intrinsic, %sw.bb ], [ getelementptr inbounds ([8 x i8], [8 x i8]* @.str.4, i64 0, i64 0), %entry ], !dbg !169
  ret i8* %retval.0, !dbg !170
}

; Function Attrs: mustprogress nofree noinline nosync nounwind readnone uwtable willreturn
define internal fastcc i32 @step(i32 noundef %sum, i32 noundef %next) unnamed_addr #8 !dbg !171 {
entry:
  %0 = call i32 @llvm.x86.sse42.crc32.32.32(i32 %sum, i32 %next), !dbg !172
  ret i32 %0, !dbg !173
}

; Function Attrs: nofree nosync nounwind readnone
declare i32 @llvm.x86.sse42.crc32.32.32(i32, i32) #9

; Function Attrs: nofree nounwind
declare noundef i32 @puts(i8* nocapture noundef readonly) local_unnamed_addr #10

; Function Attrs: argmemonly nofree nosync nounwind readonly willreturn
declare i8* @llvm.load.relative.i64(i8*, i64) #11

attributes #0 = { nofree noinline nosync nounwind uwtable "frame-pointer"="none" "min-legal-vector-width"="0" "no-trapping-math"="true" "stack-protector-buffer-size"="8" "target-cpu"="x86-64" "target-features"="+cx8,+fxsr,+mmx,+popcnt,+sse,+sse2,+sse3,+sse4.1,+ssse3,+x87" "tune-cpu"="generic" }
attributes #1 = { argmemonly mustprogress nofree nosync nounwind willreturn }
attributes #2 = { nofree noinline nosync nounwind readonly uwtable "frame-pointer"="none" "min-legal-vector-width"="0" "no-trapping-math"="true" "stack-protector-buffer-size"="8" "target-cpu"="x86-64" "target-features"="+cx8,+fxsr,+mmx,+popcnt,+sse,+sse2,+sse3,+sse4.1,+ssse3,+x87" "tune-cpu"="generic" }
attributes #3 = { argmemonly mustprogress nofree nounwind willreturn }
attributes #4 = { nofree noinline norecurse nosync nounwind readonly uwtable "frame-pointer"="none" "min-legal-vector-width"="0" "no-trapping-math"="true" "stack-protector-buffer-size"="8" "target-cpu"="x86-64" "target-features"="+cx8,+fxsr,+mmx,+popcnt,+sse,+sse2,+sse3,+sse4.1,+ssse3,+x87" "tune-cpu"="generic" }
attributes #5 = { nofree noinline nounwind uwtable "frame-pointer"="none" "min-legal-vector-width"="0" "no-trapping-math"="true" "stack-protector-buffer-size"="8" "target-cpu"="x86-64" "target-features"="+cx8,+fxsr,+mmx,+popcnt,+sse,+sse2,+sse3,+sse4.1,+ssse3,+x87" "tune-cpu"="generic" }
attributes #6 = { nofree nounwind "frame-pointer"="none" "no-trapping-math"="true" "stack-protector-buffer-size"="8" "target-cpu"="x86-64" "target-features"="+cx8,+fxsr,+mmx,+popcnt,+sse,+sse2,+sse3,+sse4.1,+ssse3,+x87" "tune-cpu"="generic" }
attributes #7 = { mustprogress nofree noinline norecurse nosync nounwind readnone uwtable willreturn "frame-pointer"="none" "min-legal-vector-width"="0" "no-trapping-math"="true" "stack-protector-buffer-size"="8" "target-cpu"="x86-64" "target-features"="+cx8,+fxsr,+mmx,+popcnt,+sse,+sse2,+sse3,+sse4.1,+ssse3,+x87" "tune-cpu"="generic" }
attributes #8 = { mustprogress nofree noinline nosync nounwind readnone uwtable willreturn "frame-pointer"="none" "min-legal-vector-width"="0" "no-trapping-math"="true" "stack-protector-buffer-size"="8" "target-cpu"="x86-64" "target-features"="+cx8,+fxsr,+mmx,+popcnt,+sse,+sse2,+sse3,+sse4.1,+ssse3,+x87" "tune-cpu"="generic" }
attributes #9 = { nofree nosync nounwind readnone }
attributes #10 = { nofree nounwind }
attributes #11 = { argmemonly nofree nosync nounwind readonly willreturn }
attributes #12 = { nounwind }

!llvm.dbg.cu = !{!0}
!llvm.module.flags = !{!2, !3, !4, !5, !6, !7}
!llvm.ident = !{!8}

!0 = distinct !DICompileUnit(language: DW_LANG_C99, file: !1, producer: "Debian clang version 14.0.6", isOptimized: true, runtimeVersion: 0, emissionKind: LineTablesOnly, splitDebugInlining: false, nameTableKind: None)
!1 = !DIFile(filename: "meter.c", directory: "/src/meter", checksumkind: CSK_MD5, checksum: "f2cedef247529ef20d8b456ed651034f")
!2 = !{i32 7, !"Dwarf Version", i32 5}
!3 = !{i32 2, !"Debug Info Version", i32 3}
!4 = !{i32 1, !"wchar_size", i32 4}
!5 = !{i32 7, !"PIC Level", i32 2}
!6 = !{i32 7, !"PIE Level", i32 2}
!7 = !{i32 7, !"uwtable", i32 1}
!8 = !{!"Debian clang version 14.0.6"}
!9 = distinct !DISubprogram(name: "put", scope: !1, file: !1, line: 32, type: !10, scopeLine: 33, flags: DIFlagPrototyped | DIFlagAllCallsDescribed, spFlags: DISPFlagDefinition | DISPFlagOptimized, unit: !0, retainedNodes: !11)
!10 = !DISubroutineType(types: !11)
!11 = !{}
!12 = !DILocation(line: 34, column: 38, scope: !9)
!13 = !DILocation(line: 34, column: 26, scope: !9)
!14 = !DILocation(line: 35, column: 15, scope: !9)
!15 = !{!16, !19, i64 196}
!16 = !{!"ring", !17, i64 0, !19, i64 192, !19, i64 196}
!17 = !{!"omnipotent char", !18, i64 0}
!18 = !{!"Simple C/C++ TBAA"}
!19 = !{!"int", !17, i64 0}
!20 = !DILocation(line: 35, column: 21, scope: !9)
!21 = !DILocation(line: 35, column: 9, scope: !9)
!22 = !DILocation(line: 36, column: 15, scope: !9)
!23 = !{!19, !19, i64 0}
!24 = !DILocation(line: 37, column: 9, scope: !9)
!25 = !DILocation(line: 39, column: 46, scope: !9)
!26 = !{!16, !19, i64 192}
!27 = !DILocation(line: 39, column: 52, scope: !9)
!28 = !DILocation(line: 39, column: 67, scope: !9)
!29 = !DILocation(line: 39, column: 28, scope: !9)
!30 = !DILocation(line: 40, column: 10, scope: !9)
!31 = !DILocation(line: 40, column: 13, scope: !9)
!32 = !{!33, !19, i64 0}
!33 = !{!"reading", !19, i64 0, !19, i64 4, !34, i64 8, !17, i64 16, !19, i64 20}
!34 = !{!"double", !17, i64 0}
!35 = !DILocation(line: 41, column: 10, scope: !9)
!36 = !DILocation(line: 41, column: 16, scope: !9)
!37 = !{!33, !19, i64 4}
!38 = !DILocation(line: 42, column: 10, scope: !9)
!39 = !DILocation(line: 42, column: 16, scope: !9)
!40 = !{!33, !34, i64 8}
!41 = !DILocation(line: 43, column: 10, scope: !9)
!42 = !DILocation(line: 43, column: 16, scope: !9)
!43 = !{!33, !17, i64 16}
!44 = !DILocation(line: 44, column: 21, scope: !9)
!45 = !DILocation(line: 44, column: 10, scope: !9)
!46 = !DILocation(line: 44, column: 19, scope: !9)
!47 = !{!33, !19, i64 20}
!48 = !DILocation(line: 0, scope: !9)
!49 = !DILocation(line: 47, column: 1, scope: !9)
!50 = distinct !DISubprogram(name: "checksum_of", scope: !1, file: !1, line: 15, type: !10, scopeLine: 16, flags: DIFlagPrototyped | DIFlagAllCallsDescribed, spFlags: DISPFlagLocalToUnit | DISPFlagDefinition | DISPFlagOptimized, unit: !0, retainedNodes: !11)
!51 = !DILocation(line: 17, column: 25, scope: !50)
!52 = !DILocation(line: 19, column: 5, scope: !50)
!53 = !DILocation(line: 21, column: 12, scope: !50)
!54 = !DILocation(line: 21, column: 5, scope: !50)
!55 = !DILocation(line: 20, column: 25, scope: !50)
!56 = !DILocation(line: 20, column: 15, scope: !50)
!57 = !DILocation(line: 19, column: 30, scope: !50)
!58 = !DILocation(line: 19, column: 24, scope: !50)
!59 = distinct !{!59, !52, !60, !61, !62}
!60 = !DILocation(line: 20, column: 33, scope: !50)
!61 = !{!"llvm.loop.mustprogress"}
!62 = !{!"llvm.loop.unroll.disable"}
!63 = distinct !DISubprogram(name: "take", scope: !1, file: !1, line: 49, type: !10, scopeLine: 50, flags: DIFlagPrototyped | DIFlagAllCallsDescribed, spFlags: DISPFlagDefinition | DISPFlagOptimized, unit: !0, retainedNodes: !11)
!64 = !DILocation(line: 51, column: 38, scope: !63)
!65 = !DILocation(line: 51, column: 26, scope: !63)
!66 = !DILocation(line: 52, column: 15, scope: !63)
!67 = !DILocation(line: 52, column: 21, scope: !63)
!68 = !DILocation(line: 52, column: 9, scope: !63)
!69 = !DILocation(line: 54, column: 28, scope: !63)
!70 = !DILocation(line: 54, column: 11, scope: !63)
!71 = !{i64 0, i64 4, !23, i64 4, i64 4, !23, i64 8, i64 8, !72, i64 16, i64 4, !73, i64 20, i64 4, !23}
!72 = !{!34, !34, i64 0}
!73 = !{!17, !17, i64 0}
!74 = !DILocation(line: 55, column: 26, scope: !63)
!75 = !DILocation(line: 55, column: 32, scope: !63)
!76 = !DILocation(line: 55, column: 37, scope: !63)
!77 = !DILocation(line: 55, column: 17, scope: !63)
!78 = !DILocation(line: 56, column: 16, scope: !63)
!79 = !DILocation(line: 57, column: 13, scope: !63)
!80 = !DILocation(line: 57, column: 25, scope: !63)
!81 = !DILocation(line: 57, column: 22, scope: !63)
!82 = !DILocation(line: 0, scope: !63)
!83 = !DILocation(line: 57, column: 9, scope: !63)
!84 = !DILocation(line: 58, column: 19, scope: !63)
!85 = !DILocation(line: 59, column: 15, scope: !63)
!86 = !DILocation(line: 60, column: 9, scope: !63)
!87 = !DILocation(line: 62, column: 15, scope: !63)
!88 = !DILocation(line: 63, column: 5, scope: !63)
!89 = !DILocation(line: 64, column: 1, scope: !63)
!90 = distinct !DISubprogram(name: "mean_of", scope: !1, file: !1, line: 66, type: !10, scopeLine: 67, flags: DIFlagPrototyped | DIFlagAllCallsDescribed, spFlags: DISPFlagDefinition | DISPFlagOptimized, unit: !0, retainedNodes: !11)
!91 = !DILocation(line: 68, column: 44, scope: !90)
!92 = !DILocation(line: 68, column: 32, scope: !90)
!93 = !DILocation(line: 71, column: 24, scope: !90)
!94 = !DILocation(line: 71, column: 5, scope: !90)
!95 = !DILocation(line: 70, column: 10, scope: !90)
!96 = !DILocation(line: 69, column: 12, scope: !90)
!97 = !DILocation(line: 78, column: 12, scope: !90)
!98 = !DILocation(line: 72, column: 62, scope: !90)
!99 = !DILocation(line: 72, column: 67, scope: !90)
!100 = !DILocation(line: 72, column: 38, scope: !90)
!101 = !DILocation(line: 73, column: 18, scope: !90)
!102 = !DILocation(line: 73, column: 24, scope: !90)
!103 = !DILocation(line: 73, column: 13, scope: !90)
!104 = !DILocation(line: 75, column: 21, scope: !90)
!105 = !DILocation(line: 75, column: 13, scope: !90)
!106 = !DILocation(line: 76, column: 13, scope: !90)
!107 = !DILocation(line: 77, column: 5, scope: !90)
!108 = !DILocation(line: 0, scope: !90)
!109 = !DILocation(line: 71, column: 40, scope: !90)
!110 = distinct !{!110, !94, !107, !61, !62}
!111 = !DILocation(line: 78, column: 25, scope: !90)
!112 = !DILocation(line: 78, column: 23, scope: !90)
!113 = !DILocation(line: 78, column: 5, scope: !90)
!114 = distinct !DISubprogram(name: "main", scope: !1, file: !1, line: 93, type: !10, scopeLine: 94, flags: DIFlagPrototyped | DIFlagAllCallsDescribed, spFlags: DISPFlagDefinition | DISPFlagOptimized, unit: !0, retainedNodes: !11)
!115 = !DILocation(line: 95, column: 5, scope: !114)
!116 = !DILocation(line: 96, column: 5, scope: !114)
!117 = !DILocation(line: 99, column: 5, scope: !114)
!118 = !DILocation(line: 100, column: 12, scope: !114)
!119 = !DILocation(line: 100, column: 26, scope: !114)
!120 = !DILocation(line: 100, column: 5, scope: !114)
!121 = !DILocation(line: 97, column: 19, scope: !114)
!122 = !DILocation(line: 97, column: 28, scope: !114)
!123 = !DILocation(line: 97, column: 33, scope: !114)
!124 = !DILocation(line: 97, column: 35, scope: !114)
!125 = !DILocation(line: 97, column: 13, scope: !114)
!126 = !DILocation(line: 98, column: 13, scope: !114)
!127 = !DILocation(line: 96, column: 31, scope: !114)
!128 = !DILocation(line: 96, column: 24, scope: !114)
!129 = distinct !{!129, !116, !130, !61, !62}
!130 = !DILocation(line: 98, column: 39, scope: !114)
!131 = !DILocation(line: 101, column: 36, scope: !114)
!132 = !DILocation(line: 101, column: 24, scope: !114)
!133 = !DILocation(line: 101, column: 9, scope: !114)
!134 = distinct !{!134, !120, !135, !61, !62}
!135 = !DILocation(line: 101, column: 42, scope: !114)
!136 = !DILocation(line: 102, column: 12, scope: !114)
!137 = !DILocation(line: 102, column: 19, scope: !114)
!138 = !DILocation(line: 103, column: 1, scope: !114)
!139 = !DILocation(line: 102, column: 5, scope: !114)
!140 = distinct !DISubprogram(name: "print_all", scope: !1, file: !1, line: 81, type: !10, scopeLine: 82, flags: DIFlagPrototyped | DIFlagAllCallsDescribed, spFlags: DISPFlagLocalToUnit | DISPFlagDefinition | DISPFlagOptimized, unit: !0, retainedNodes: !11)
!141 = !DILocation(line: 83, column: 5, scope: !140)
!142 = !DILocation(line: 91, column: 1, scope: !140)
!143 = !DILocation(line: 85, column: 36, scope: !140)
!144 = !DILocation(line: 85, column: 28, scope: !140)
!145 = !DILocation(line: 85, column: 9, scope: !140)
!146 = !DILocation(line: 89, column: 30, scope: !140)
!147 = !DILocation(line: 89, column: 9, scope: !140)
!148 = !DILocation(line: 83, column: 30, scope: !140)
!149 = !DILocation(line: 83, column: 24, scope: !140)
!150 = distinct !{!150, !141, !151, !61, !62}
!151 = !DILocation(line: 90, column: 5, scope: !140)
!152 = !DILocation(line: 86, column: 60, scope: !140)
!153 = !DILocation(line: 86, column: 66, scope: !140)
!154 = !DILocation(line: 86, column: 71, scope: !140)
!155 = !DILocation(line: 86, column: 42, scope: !140)
!156 = !DILocation(line: 87, column: 47, scope: !140)
!157 = !DILocation(line: 87, column: 59, scope: !140)
!158 = !DILocation(line: 87, column: 68, scope: !140)
!159 = !DILocation(line: 87, column: 88, scope: !140)
!160 = !DILocation(line: 87, column: 75, scope: !140)
!161 = !DILocation(line: 87, column: 13, scope: !140)
!162 = !DILocation(line: 85, column: 44, scope: !140)
!163 = distinct !{!163, !145, !164, !61, !62}
!164 = !DILocation(line: 88, column: 9, scope: !140)
!165 = distinct !DISubprogram(name: "name_of", scope: !1, file: !1, line: 24, type: !10, scopeLine: 25, flags: DIFlagPrototyped | DIFlagAllCallsDescribed, spFlags: DISPFlagLocalToUnit | DISPFlagDefinition | DISPFlagOptimized, unit: !0, retainedNodes: !11)
!166 = !DILocation(line: 26, column: 5, scope: !165)
!167 = !DILocation(line: 27, column: 63, scope: !165)
!168 = !DILocation(line: 27, column: 56, scope: !165)
!169 = !DILocation(line: 0, scope: !165)
!170 = !DILocation(line: 30, column: 1, scope: !165)
!171 = distinct !DISubprogram(name: "step", scope: !1, file: !1, line: 10, type: !10, scopeLine: 11, flags: DIFlagPrototyped | DIFlagAllCallsDescribed, spFlags: DISPFlagLocalToUnit | DISPFlagDefinition | DISPFlagOptimized, unit: !0, retainedNodes: !11)
!172 = !DILocation(line: 12, column: 12, scope: !171)
!173 = !DILocation(line: 12, column: 5, scope: !171)
